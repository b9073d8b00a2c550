package odd

var x = 1
