fof(rains, axiom, p).
fof(then_wet, axiom, p => q).
fof(wet, conjecture, q).
