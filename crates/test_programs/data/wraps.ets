etsgraph 1
block m 2 1
- add 0.0 1.0
out 2.0
end
main m
9223372036854775807
1
