module ex.com/typo

go 1.22
