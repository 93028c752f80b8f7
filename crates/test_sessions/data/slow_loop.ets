etsgraph 1
block slow 2 3
- lit 1 0.0
- sub 0.0 2.0
- neg 1.0
- neg 4.0
- neg 5.0
- neg 6.0
- neg 7.0
- neg 8.0
- neg 9.0
- neg 10.0
- neg 11.0
- neg 12.0
- neg 13.0
- neg 14.0
out 3.0 3.0 15.0
end
block m 2 1
- loop slow 2 0.0 1.0
out 2.1
end
main m
