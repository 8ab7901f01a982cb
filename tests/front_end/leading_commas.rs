fn f() { (, a); let (, b) = c; let S(, d) = e; }
