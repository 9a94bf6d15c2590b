a←2 ⋄ b←a×(a+3) ⋄ •Show -b
