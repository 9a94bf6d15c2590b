1 •Show 2
