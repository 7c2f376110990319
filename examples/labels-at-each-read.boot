recheck on
