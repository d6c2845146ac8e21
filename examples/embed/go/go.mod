module rackd

go 1.19
