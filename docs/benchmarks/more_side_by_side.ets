etsgraph 1
block b 3 4
- lit 1 0.0
- add 0.0 3.0
- add 1.0 0.0
- le 4.0 2.0
out 6.0 4.0 5.0 2.0
end
block q 1 1
- lit 1 0.0
- lit 0 0.0
- loop b 2 1.0 2.0 0.0
- loop b 2 1.0 2.0 0.0
- loop b 2 1.0 2.0 0.0
- loop b 2 1.0 2.0 0.0
- loop b 2 1.0 2.0 0.0
- loop b 2 1.0 2.0 0.0
- loop b 2 1.0 2.0 0.0
- loop b 2 1.0 2.0 0.0
- add 3.1 4.1
- add 11.0 5.1
- add 12.0 6.1
- add 13.0 7.1
- add 14.0 8.1
- add 15.0 9.1
- add 16.0 10.1
out 17.0
end
block h 1 1
- call q 0.0
- call q 0.0
- call q 0.0
- call q 0.0
- call q 0.0
- call q 0.0
- call q 0.0
- call q 0.0
- add 1.0 2.0
- add 9.0 3.0
- add 10.0 4.0
- add 11.0 5.0
- add 12.0 6.0
- add 13.0 7.0
- add 14.0 8.0
out 15.0
end
block m 1 1
- call h 0.0
- call h 0.0
- call h 0.0
- call h 0.0
- call h 0.0
- call h 0.0
- call h 0.0
- call h 0.0
- add 1.0 2.0
- add 9.0 3.0
- add 10.0 4.0
- add 11.0 5.0
- add 12.0 6.0
- add 13.0 7.0
- add 14.0 8.0
out 15.0
end
main m
125
