module ex.com/marked

go 1.22
