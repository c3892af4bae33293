# Checks that the lines of the first file are among those of the second, in this order.
BEGIN { found = 0 }
FILENAME == ARGV[1] { wanted[count++] = $0; next }
found < count && $0 == wanted[found] { found++ }
END { if (found < count) { print FILENAME " does not have the line: " wanted[found]; exit 1 } }
