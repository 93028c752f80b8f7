etsgraph 1
block m 2 1
- cond 0.0
2+ enter 0.0
2+ add 3.0 3.0
out 0.0
end
main m
