package names

var x none
