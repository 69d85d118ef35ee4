story 2
event 28 line 13 in 4 out 2: 1.0.a failed in incarnation 1
event 29 line 14 in 4 out 2: 1.0.b is named leader in term 2, 1 events after its partner failed
event 30 line 15 in 4 out 2: 1.0.b failed in incarnation 1
event 30 line 15 in 4 out 2: pair 1.0 is lost
takeovers 1
rows 2
end: pair 1.0 is lost: 2 rows, 4 with all
