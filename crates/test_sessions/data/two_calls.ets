etsgraph 1
block g 2 1
- neg 0.0
out 2.0
end
block m 2 2
- call g 0.0 1.0
- call g 2.0 2.0
out 2.0 3.0
end
main m
