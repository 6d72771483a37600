% Who has a grandchild?
fof(grandparents, definition,
    ![X, Y]: (grandparent(X, Y) <=> ?[Z]: (parent(X, Z) & parent(Z, Y)))).
fof(ann, axiom, parent(ann, bob)).
fof(bob, axiom, parent(bob, cid)).
fof(goal, conjecture, ?[X]: grandparent(X, cid)).
