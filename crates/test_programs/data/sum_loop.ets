etsgraph 1
block b 3 4
- lit 1 0.0
- add 0.0 3.0
- add 1.0 0.0
- le 4.0 2.0
out 6.0 4.0 5.0 2.0
end
block m 1 1
- lit 1 0.0
- lit 0 0.0
- loop b 2 1.0 2.0 0.0
out 3.1
end
main m
1000
