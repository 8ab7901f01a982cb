fn f() { ;; a;; }
