story 2
event 11 line 8 in 2 out 0: 1.0.b failed in incarnation 1
event 13 line 10 in 2 out 0: 1.0.b is asked back by its partner
event 14 line 11 in 2 out 0: 1.0.b is to begin in incarnation 2
event 15 line 13 in 2 out 0: 1.0.b begins in incarnation 2
event 36 line 21 in 4 out 0: 1.0.a has sent its state to its partner in incarnation 2, 7 entries
takeovers 0
rows 0
end: not done
