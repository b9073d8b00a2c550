package one

import _ "example.com/shop/circle/two"
