story 2
event 28 line 13 in 4 out 2: 1.0.a failed in incarnation 1
event 29 line 15 in 4 out 2: 1.0.b is named leader in term 2, 1 events after its partner failed
event 30 line 16 in 4 out 2: 1.0.b leads in term 2
takeovers 1
rows 4
end: not done
