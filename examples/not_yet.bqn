•Show 7÷2
