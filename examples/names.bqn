a_B←1e3 # c
•Show ab-1_0
