module emupedestal/h26x

go 1.19
