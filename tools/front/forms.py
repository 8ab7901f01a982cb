"""Which child of the parser's node becomes which field of a document's node.

An entry holds the document's kind and then its fields, in the order in which their nodes are numbered:

    field=WHAT        the first child that is WHAT, a kind or a group of kinds
    field*WHAT        all of them
    field*LIST/WHAT   all of them in the child LIST, and no field without one
    field:KIND        a flag: whether a child of this kind is there

What isn't so plain is a method of `Builder`, `make_` and the kind.
"""

FORMS = {
    # expressions
    "PAREN_EXPR": "ParenExpr expr=EXPR",
    "RETURN_EXPR": "ReturnExpr expr=EXPR",
    "BECOME_EXPR": "BecomeExpr expr=EXPR",
    "YIELD_EXPR": "YieldExpr expr=EXPR",
    "YEET_EXPR": "YeetExpr expr=EXPR",
    "AWAIT_EXPR": "AwaitExpr expr=EXPR",
    "TRY_EXPR": "TryExpr expr=EXPR",
    "UNDERSCORE_EXPR": "UnderscoreExpr",
    "ASM_EXPR": "AsmExpr",
    "FORMAT_ARGS_EXPR": "FormatArgsExpr",
    "INCLUDE_BYTES_EXPR": "IncludeBytesExpr",
    "CFG_PRED_EXPR": "CfgPredExpr",
    "LET_EXPR": "LetExpr pat=PAT expr=EXPR",
    "LABEL": "Label lifetime=LIFETIME",
    "LOOP_EXPR": "LoopExpr label=LABEL body=BLOCK_EXPR",
    "CALL_EXPR": "CallExpr expr=EXPR args*ARG_LIST/EXPR",
    "METHOD_CALL_EXPR": "MethodCallExpr receiver=EXPR name=NAME_REF generics=GENERIC_ARG_LIST args*ARG_LIST/EXPR",
    "MATCH_ARM": "MatchArm pat=PAT guard=MATCH_GUARD expr=EXPR",
    "MATCH_GUARD": "Guard condition=EXPR",
    "PATH_EXPR": "PathExpr path=PATH",
    "CONTINUE_EXPR": "ContinueExpr lifetime=LIFETIME",
    "BREAK_EXPR": "BreakExpr lifetime=LIFETIME expr=EXPR",
    "RECORD_EXPR": "RecordExpr path=PATH list=RECORD_EXPR_FIELD_LIST",
    "RECORD_EXPR_FIELD_LIST": "RecordExprFieldList fields*RECORD_EXPR_FIELD spread=EXPR dotdot:DOT2",
    "CAST_EXPR": "CastExpr expr=EXPR ty=TYPE",
    "REF_EXPR": "RefExpr raw:RAW_KW mut:MUT_KW expr=EXPR",
    "CLOSURE_EXPR": "ClosureExpr async:ASYNC_KW gen:GEN_KW move:MOVE_KW static:STATIC_KW params*PARAM_LIST/PARAM ret=RET_TYPE body=EXPR",
    "OFFSET_OF_EXPR": "OffsetOfExpr ty=TYPE fields*NAME_REF",
    # statements
    "LET_STMT": "LetStmt pat=PAT ty=TYPE init=EXPR else=LET_ELSE",
    "LET_ELSE": "LetElse block=BLOCK_EXPR",
    # patterns
    "PAREN_PAT": "ParenPat pat=PAT",
    "BOX_PAT": "BoxPat pat=PAT",
    "DEREF_PAT": "DerefPat pat=PAT",
    "WILDCARD_PAT": "WildcardPat",
    "REST_PAT": "RestPat",
    "NOT_NULL": "NotNullPat",
    "CONST_BLOCK_PAT": "ConstBlockPat",
    "CFG_PRED_PAT": "CfgPredPat",
    "IDENT_PAT": "IdentPat name=NAME ref:REF_KW mut:MUT_KW pat=PAT",
    "REF_PAT": "RefPat mut:MUT_KW pat=PAT",
    "PATH_PAT": "PathPat path=PATH",
    "OR_PAT": "OrPat pats*PAT",
    "LITERAL_PAT": "LiteralPat lit=LITERAL minus:MINUS",
    # types
    "PAREN_TYPE": "ParenType ty=TYPE",
    "SLICE_TYPE": "SliceType ty=TYPE",
    "NEVER_TYPE": "NeverType",
    "INFER_TYPE": "InferType",
    "TUPLE_TYPE": "TupleType fields*TYPE",
    "PATH_TYPE": "PathType path=PATH",
    "PTR_TYPE": "PtrType mut:MUT_KW ty=TYPE",
    "ARRAY_TYPE": "ArrayType ty=TYPE len=CONST_ARG",
    "REF_TYPE": "RefType lifetime=LIFETIME mut:MUT_KW ty=TYPE",
    "FOR_TYPE": "ForType binder=FOR_BINDER ty=TYPE",
    "IMPL_TRAIT_TYPE": "ImplTraitType bounds*TYPE_BOUND_LIST/TYPE_BOUND",
    "DYN_TRAIT_TYPE": "DynTraitType bounds*TYPE_BOUND_LIST/TYPE_BOUND",
    "PATTERN_TYPE": "PatternType ty=TYPE pat=PAT",
    "RET_TYPE": "RetType ty=TYPE",
    # arguments and parameters
    "GENERIC_ARG_LIST": "GenericArgList args*GENERIC_ARG",
    "PARENTHESIZED_ARG_LIST": "ParenArgs args*TYPE_ARG",
    "TYPE_ARG": "TypeArg ty=TYPE",
    "LIFETIME_ARG": "LifetimeArg lifetime=LIFETIME",
    "CONST_ARG": "ConstArg expr=EXPR",
    "ASSOC_TYPE_ARG": "AssocTypeArg name=NAME_REF params:PARAM_LIST rtn:RETURN_TYPE_SYNTAX generics=GENERIC_ARG_LIST ty=TYPE"
                      " bounds*TYPE_BOUND_LIST/TYPE_BOUND",
    "PARAM": "Param pat=PAT ty=TYPE variadic:DOT3",
    "SELF_PARAM": "SelfParam name=NAME ref:AMP mut:MUT_KW lifetime=LIFETIME ty=TYPE",
    "PARAM_LIST": "ParamList self=SELF_PARAM params*PARAM",
    "GENERIC_PARAM_LIST": "GenericParamList params*GENERIC_PARAM",
    "TYPE_PARAM": "TypeParam name=NAME bounds*TYPE_BOUND_LIST/TYPE_BOUND default=TYPE",
    "CONST_PARAM": "ConstParam name=NAME ty=TYPE default=CONST_ARG",
    "LIFETIME_PARAM": "LifetimeParam lifetime=LIFETIME bounds*TYPE_BOUND_LIST/TYPE_BOUND",
    "WHERE_CLAUSE": "WhereClause preds*WHERE_PRED",
    "WHERE_PRED": "WherePred binder=FOR_BINDER lifetime=LIFETIME ty=TYPE bounds*TYPE_BOUND_LIST/TYPE_BOUND",
}

OPERATORS = {
    "PIPE2": "||", "AMP2": "&&", "EQ2": "==", "NEQ": "!=", "LTEQ": "<=", "GTEQ": ">=", "L_ANGLE": "<", "R_ANGLE": ">",
    "PLUS": "+", "STAR": "*", "MINUS": "-", "SLASH": "/", "PERCENT": "%", "SHL": "<<", "SHR": ">>", "CARET": "^",
    "PIPE": "|", "AMP": "&", "EQ": "=", "PLUSEQ": "+=", "STAREQ": "*=", "MINUSEQ": "-=", "SLASHEQ": "/=", "PERCENTEQ": "%=",
    "SHLEQ": "<<=", "SHREQ": ">>=", "PIPEEQ": "|=", "AMPEQ": "&=", "CARETEQ": "^=",
}
PREFIXES = {"STAR": "*", "BANG": "!", "MINUS": "-"}
WORDS = {"SELF_TYPE_KW": "Self", "SELF_KW": "self", "SUPER_KW": "super", "CRATE_KW": "crate"}
RANGES = {"DOT2": "..", "DOT2EQ": "..="}
