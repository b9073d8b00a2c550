package two

import _ "example.com/shop/circle/one"
