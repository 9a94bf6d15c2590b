•Show 10-2-3 ⋄ •Show ¯2×3
•Show •Show 1, •Show -×-7
