etsgraph 1
block down 1 2
- lit 1 0.0
- sub 0.0 1.0
out 2.0 2.0
end
block m 1 1
- loop down 2 0.0
out 1.0
end
main m
