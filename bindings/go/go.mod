module picky

go 1.19
