"""The specification of lines, which `load N` has built in."""

LINES = b"""root prog;
list stmts;
prog : Prog(stmts);
stmts : NoStmts() | Stmts(stmt stmts);
stmt : Empty() | Decl(ID INT) | Print(ID);
env : NoEnv() | Bind(ID INT env);
ID : < "[a-z][a-z0-9]*" >;
NUM : < "[0-9]+" >;
WHITESPACE : < "[ \\n]+" >;
stmts { inherited env e; synthesized INT errs; };
stmt { inherited env e; synthesized env out; synthesized INT errs; };
INT look(ID k, env e) { with (e) ( NoEnv() : 0 - 1, Bind(n, v, r) : n == k ? v : look(k, r) ) };
prog : Prog { stmts.e = NoEnv(); };
stmts : NoStmts { $$.errs = 0; };
stmts : Stmts { stmt.e = $$.e; stmts$2.e = stmt.out; $$.errs = stmt.errs + stmts$2.errs; };
stmt : Empty { $$.out = $$.e; $$.errs = 0; };
stmt : Decl { $$.out = Bind(ID.value, INT.value, $$.e); $$.errs = 0; };
stmt : Print { local INT val; val = look(ID.value, $$.e); $$.out = $$.e; $$.errs = val < 0 ? 1 : 0; };
prog : Prog [ @ : @ "%n" stmts.errs " errors" ];
stmts : NoStmts [ @ ::= ];
stmts : Stmts [ @ ::= @ [ "%n" ] @ ];
stmt : Empty [ @ ::= "<stmt>" ];
stmt : Decl [ @ ::= "let " ^ " = " ^ ];
stmt : Print [ @ ::= "print " ^ "  -- " val ];
S { synthesized stmt t; };
L { synthesized stmts t; };
S ::= ('let' ID '=' NUM) { Decl(ID.value, STRtoINT(NUM.value)) } | ('print' ID) { Print(ID.value) };
L ::= () { NoStmts() } | (S ';' L) { S.t :: L$2.t };
stmt ~ S.t;
stmts ~ L.t;
"""
