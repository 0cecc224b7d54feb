module tinkproved

go 1.19
