module lrc

go 1.19
