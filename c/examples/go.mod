module linkinfo_show

go 1.19
