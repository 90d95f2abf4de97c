process a { print(9223372036854775807 + 1); }
