package names

var y none
