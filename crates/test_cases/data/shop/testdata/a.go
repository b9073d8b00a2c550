package a

var x none
