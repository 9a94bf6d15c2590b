•Show 1
•Show "ab
