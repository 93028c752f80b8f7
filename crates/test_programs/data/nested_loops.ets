etsgraph 1
block inner 3 4
- lit 1 0.0
- add 0.0 3.0
- add 1.0 0.0
- le 4.0 2.0
out 6.0 4.0 5.0 2.0
end
block outer 3 4
- lit 1 0.0
- lit 0 0.0
- loop inner 2 3.0 4.0 0.0
- add 1.0 5.1
- add 0.0 3.0
- le 7.0 2.0
out 8.0 7.0 6.0 2.0
end
block m 1 1
- lit 1 0.0
- lit 0 0.0
- loop outer 2 1.0 2.0 0.0
out 3.1
end
main m
10
