#!/usr/bin/env luasuite
print(0x10) --[==[ a comment
of two lines ]==] print ( 007
) -- and one to the end of its line
print(9223372036854775807)
