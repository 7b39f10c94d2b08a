# What the rules of `literal.g` mean for the reader's definition of how a tree is spelled (`crates/hs_spelling/specs`), and for each
# production the terms that show it. `make_spelling.py` makes crates/hs_spelling/proofs/Rules.antt and the files of its productions of it.
#
# `rule NAME : puts OUTPUTS ; STACKS ; FACT`        the rule puts these parts on the stacks `p`, and FACT holds of them, between the tokens
#                                                    `rest`, in front of which it begins, and `r`, which are left
# `rule NAME : takes INPUTS ; STACKS ; GIVEN ; OUTPUTS ; STACKS ; FACT`
#                                                    it finds these inputs on the stacks, the others being `q`, with GIVEN between some tokens
#                                                    `from` and `rest` (`-` where nothing is given), and puts the outputs in their place
# `rule NAME, NAME ..`                               several rules with one meaning
# `  | PARTS => TERM ; TERM ..`                      a production, as it stands in `literal.g`, and the terms that its proof needs, from the left:
#                                                    for a rule with something GIVEN a proof of that; for a step that makes a tree deeper the two
#                                                    depths that it compares; and at the end a proof of the FACT. For the part number i from 1
#                                                    wi is its token, xi, yi and zi are its outputs, si is its FACT; $n is the input n, $pre what
#                                                    is given.
# X, L, Z and T are the modules Expressions, Literals, Statements and Tokens of the definition.

rule start : puts x : Stmt ; with_statement x p ; (a : List Token) × Z.SpellsStatement text x rest a × T.Maybe text class.semicolon_mark a r
  | statement semicolon => (_, s1, s2)
rule semicolon : puts - ; p ; T.Maybe text class.semicolon_mark rest r
  | ; => T.written_out w1
  | => T.left_out
rule work : puts - ; p ; T.Maybe text class.WORK rest r
  | WORK => T.written_out w1
  | => T.left_out
rule outer : puts - ; p ; T.Maybe text class.OUTER rest r
  | OUTER => T.written_out w1
  | => T.left_out
rule as : puts - ; p ; T.Maybe text class.AS rest r
  | AS => T.written_out w1
  | => T.left_out

rule statement : puts x : Stmt ; with_statement x p ; Z.SpellsStatement text x rest r
  | query #query_statement => Z.query s1
  | insert => s1
  | update => s1
  | delete => s1
  | lock => s1
  | create => s1
  | alter => s1
  | drop => s1
  | set => s1
  | START TRANSACTION #modes start_modes #start_transaction => Z.start_transaction w1 w2 s4
  | COMMIT work #commit => Z.commit w1 s2
  | ROLLBACK rollback => s2 _ w1
  | SAVEPOINT name #savepoint => Z.savepoint w1 s2
  | RELEASE SAVEPOINT name #release_savepoint => Z.release_savepoint w1 w2 s3
rule rollback : puts x : Stmt ; with_statement x p ; (a : List Token) → T.Word text class.ROLLBACK a rest → Z.SpellsStatement text x a r
  | WORK #rollback => λ a v. Z.rollback v (T.written_out w1)
  | TO SAVEPOINT name #rollback_to => λ a v. Z.rollback_to v w1 w2 s3
  | #rollback => λ a v. Z.rollback v T.left_out

rule start_modes : takes - ; with_modes Z.no_modes q ; - ; n : Modes ; with_modes n q ; Z.SpellsStart text n rest r
  | mode modes_more => Z.one_mode s1 ; Z.with_modes s2
  | => Z.without_modes
rule modes : puts m : Modes ; with_modes m p ; Z.SpellsModes text m rest r
  | #modes mode modes_more => Z.one_mode s2 ; s3
rule modes_more : takes m : Modes ; with_modes m q ; Z.SpellsModes text m from rest ; n : Modes ; with_modes n q ; Z.SpellsModes text n from r
  | , mode modes_more => Z.more_modes $pre w1 s2 ; s3
  | => $pre
rule mode : takes m : Modes ; with_modes m q ; - ; n : Modes ; with_modes n q ; Z.SpellsMode text m n rest r
  | ISOLATION LEVEL level => (_, w1, w2) ; s3
  | READ access => w1 ; s2
rule access : takes m : Modes ; with_modes m q ; T.Word text class.READ from rest ; n : Modes ; with_modes n q ; Z.SpellsMode text m n from r
  | ONLY #read_only => Z.read_only $pre w1
  | WRITE #read_write => Z.read_write $pre w1
rule level : takes m : Modes ; with_modes m q ; (a : List Token) × T.Word text class.ISOLATION from a × T.Word text class.LEVEL a rest ; n : Modes ; with_modes n q ; Z.SpellsMode text m n from r
  | READ committed => (_, _, $pre.1, $pre.2, w1) ; s2
  | REPEATABLE READ #repeatable_read => Z.repeatable_read $pre.1 $pre.2 w1 w2
  | SERIALIZABLE #serializable => Z.serializable $pre.1 $pre.2 w1
rule committed : takes m : Modes ; with_modes m q ; (a b : List Token) × T.Word text class.ISOLATION from a × T.Word text class.LEVEL a b × T.Word text class.READ b rest ; n : Modes ; with_modes n q ; Z.SpellsMode text m n from r
  | COMMITTED #read_committed => Z.read_committed $pre.2 $pre.3 $pre.4 w1

rule name : puts n : Identifier ; with_name n p ; T.Name text n rest r
  | identifier #name => name_word text refl w1
  | ACTION #name => name_word text refl w1
  | AUTOCOMMIT #name => name_word text refl w1
  | CACHED #name => name_word text refl w1
  | CHARACTERISTICS #name => name_word text refl w1
  | CHECKPOINT #name => name_word text refl w1
  | COMMITTED #name => name_word text refl w1
  | CONTROL #name => name_word text refl w1
  | DATABASE #name => name_word text refl w1
  | DELAY #name => name_word text refl w1
  | FILES #name => name_word text refl w1
  | ISOLATION #name => name_word text refl w1
  | KEY #name => name_word text refl w1
  | LEVEL #name => name_word text refl w1
  | LOCKS #name => name_word text refl w1
  | MEMORY #name => name_word text refl w1
  | MVCC #name => name_word text refl w1
  | MVLOCKS #name => name_word text refl w1
  | REPEATABLE #name => name_word text refl w1
  | SERIALIZABLE #name => name_word text refl w1
  | SESSION #name => name_word text refl w1
  | SHUTDOWN #name => name_word text refl w1
  | TRANSACTION #name => name_word text refl w1
  | WORK #name => name_word text refl w1
  | WRITE #name => name_word text refl w1
rule names : puts ns : List Identifier ; with_names ns p ; L.SpellsNames text ns rest r
  | name #first_name names_more => L.one_name s1 ; s3
rule names_more : takes ns : List Identifier ; with_names ns q ; L.SpellsNames text ns from rest ; ms : List Identifier ; with_names ms q ; L.SpellsNames text ms from r
  | , name #next_name names_more => L.more_names $pre w1 s2 ; s4
  | => $pre

rule number : puts n : PlacedNumber ; with_number n p ; T.Numeral text n.number rest r × (n.at ≡ start_of rest)
  | <0..fraction> #number => (numeral text w1, first_at w1)
rule text : puts t : PlacedText ; with_text t p ; T.Told text t.text rest r × (t.at ≡ start_of rest)
  | <digit_text..other_text> #text => (told text w1, first_at w1)
rule literal : puts x : PlacedLiteral ; with_literal x p ; L.SpellsLiteral text x.literal rest r × (x.at ≡ start_of rest)
  | number #number_literal => (L.a_number s1.0, s1.1)
  | text #text_literal => (L.a_text s1.0, s1.1)
  | TRUE #true => (L.true_word w1, first_at w1)
  | FALSE #false => (L.false_word w1, first_at w1)
  | NULL #null => (L.null_word w1, first_at w1)
  | DATE #at text #date => (L.a_date w1 s3.0, first_at w1)
  | TIMESTAMP #at text #timestamp => (L.a_timestamp w1 s3.0, first_at w1)

rule query : puts x : BuiltQuery ; with_query x p ; X.SpellsQuery text (query_of x) rest r
  | body #query ordering limiting => x1.depth 0 ; whole_query s1.spelled s3 s4
rule ordering : takes b : QueryBody, at d : ℕ ; with_query (ordered_by b [] None d at) q ; - ; ks : List SortKey, e : ℕ ; with_query (ordered_by b ks None e at) q ; Ordering text ks rest r
  | ORDER BY keys => by_keys w1 w2 s3
  | => unordered
rule keys : takes b : QueryBody, l : Option Limit, at d : ℕ ; with_query (ordered_by b [] l d at) q ; - ; ks : List SortKey, e : ℕ ; with_query (ordered_by b ks l e at) q ; X.SpellsKeys text ks rest r
  | key keys_more => X.one_key s1 ; s2
rule keys_more : takes b : QueryBody, ks : List SortKey, l : Option Limit, at d : ℕ ; with_query (ordered_by b ks l d at) q ; X.SpellsKeys text ks from rest ; js : List SortKey, e : ℕ ; with_query (ordered_by b js l e at) q ; X.SpellsKeys text js from r
  | , key keys_more => X.more_keys $pre w1 s2 ; s3
  | => $pre
rule key : takes b : QueryBody, ks : List SortKey, l : Option Limit, at d : ℕ ; with_query (ordered_by b ks l d at) q ; - ; k : SortKey, e : ℕ ; with_query (ordered_by b (ks ++ k ∷ []) l e at) q ; X.SpellsKey text k rest r
  | e direction => s1 ; s2
rule direction : takes a : Built, b : QueryBody, ks : List SortKey, l : Option Limit, at d : ℕ ; with_e a (with_query (ordered_by b ks l d at) q) ; IsBuilt text X.disjunction a from rest ; k : SortKey, e : ℕ ; with_query (ordered_by b (ks ++ k ∷ []) l e at) q ; X.SpellsKey text k from r
  | ASC #ascending => $a.depth 0 ; X.key $pre.at $pre.spelled (X.ascending w1)
  | DESC #descending => $a.depth 0 ; X.key $pre.at $pre.spelled (X.descending w1)
  | #ascending => $a.depth 0 ; X.key $pre.at $pre.spelled X.no_direction
rule limiting : takes b : QueryBody, ks : List SortKey, at d : ℕ ; with_query (ordered_by b ks None d at) q ; - ; l : Option Limit ; with_query (ordered_by b ks l d at) q ; X.SpellsLimiting text l rest r
  | LIMIT limit => X.limiting w1 s2
  | => X.no_limit
rule limit : takes b : QueryBody, ks : List SortKey, at d : ℕ ; with_query (ordered_by b ks None d at) q ; - ; l : Limit ; with_query (ordered_by b ks (Some l) d at) q ; X.SpellsLimit text l rest r
  | <1..above> #number #limit offset => X.limit (whole_number text w1) s4
rule offset : takes b : QueryBody, ks : List SortKey, c at d : ℕ ; with_query (ordered_by b ks (Some (record { count = c; offset = None })) d at) q ; - ; o : Option ℕ ; with_query (ordered_by b ks (Some (record { count = c; offset = o })) d at) q ; X.SpellsOffset text o rest r
  | OFFSET <0..above> #number #offset => X.offset w1 (whole_number text w2)
  | => X.no_offset
rule ordered : takes b : QueryBody, at d : ℕ ; with_query (ordered_by b [] None d at) q ; - ; ks : List SortKey, l : Option Limit, e : ℕ ; with_query (ordered_by b ks l e at) q ; X.SpellsEnd text ks l rest r
  | ORDER BY keys limiting => X.ordered w1 w2 s3 s4
  | LIMIT limit => X.limited w1 s2

rule body : puts b : BuiltBody ; with_body b p ; IsBody text X.any b rest r
  | term body_more => loose_body s1 ; s2.0
rule term : puts b : BuiltBody ; with_body b p ; IsBody text X.term b rest r
  | core term_more => loose_body s1 ; s2.0
rule core : puts b : BuiltBody ; with_body b p ; IsBody text X.core b rest r
  | SELECT #at select => (w1, first_at w1) ; s3
  | VALUES #values rows #values_body => made_body (X.values (first_at w1) w1 s3)
  | ( #at body ) #bracket_body => in_brackets w1 s3 w4
rule body_more : takes a : BuiltBody ; with_body a q ; IsBody text X.any a from rest ; b : BuiltBody ; with_body b q ; IsBody text X.any b from r × Grew a.tree b.tree
  | UNION union body_more => (_, $pre, w1) ; s2.0 ; (s3.0, inr (grew_on x2.tree x3.tree s2.1 s3.1))
  | EXCEPT term #except body_more => $a.depth x2.depth ; made_body (X.except $pre.spelled w1 s2.spelled) ; (s4.0, inr (grew_on _ x4.tree (_, _, _, refl) s4.1))
  | => ($pre, inl refl)
rule union : takes a : BuiltBody ; with_body a q ; (c : List Token) × IsBody text X.any a from c × T.Word text class.UNION c rest ; b : BuiltBody ; with_body b q ; IsBody text X.any b from r × IsSet b.tree
  | ALL term #union_all => $a.depth x2.depth ; (made_body (X.union_all $pre.1.spelled $pre.2 w1 s2.spelled), (_, _, _, refl))
  | term #union => $a.depth x1.depth ; (made_body (X.union $pre.1.spelled $pre.2 s1.spelled), (_, _, _, refl))
rule term_more : takes a : BuiltBody ; with_body a q ; IsBody text X.term a from rest ; b : BuiltBody ; with_body b q ; IsBody text X.term b from r × Grew a.tree b.tree
  | INTERSECT core #intersect term_more => $a.depth x2.depth ; made_body (X.intersect $pre.spelled w1 s2.spelled) ; (s4.0, inr (grew_on _ x4.tree (_, _, _, refl) s4.1))
  | => ($pre, inl refl)
rule select : takes at : ℕ ; with_place at q ; T.Word text class.SELECT from rest × (at ≡ start_of from) ; b : BuiltBody ; with_body b q ; IsBody text X.core b from r
  | distinct #select items FROM froms where group having #select_body => made_body (X.select $pre.1 $pre.0 s1 s3 w4 s5 s6 s7 s8)
rule distinct : puts f : Bool ; with_flag f p ; T.Flag text class.DISTINCT f rest r
  | DISTINCT #yes => T.yes w1
  | #no => T.no
rule items : takes f : Bool, d at : ℕ ; with_select (selected f [] [] [] d at) q ; - ; is : List SelectItem, e : ℕ ; with_select (selected f is [] [] e at) q ; X.SpellsItems text is rest r
  | * #every => X.every (first_at w1) w1
  | item items_more => X.one_item s1 ; X.listed s2
rule items_more : takes f : Bool, is : List SelectItem, fs : List FromItem, gs : List Expression, d at : ℕ ; with_select (selected f is fs gs d at) q ; X.SpellsItemList text is from rest ; js : List SelectItem, e : ℕ ; with_select (selected f js fs gs e at) q ; X.SpellsItemList text js from r
  | , item items_more => X.more_items $pre w1 s2 ; s3
  | => $pre
rule item : takes f : Bool, is : List SelectItem, fs : List FromItem, gs : List Expression, d at : ℕ ; with_select (selected f is fs gs d at) q ; - ; i : SelectItem, e : ℕ ; with_select (selected f (is ++ i ∷ []) fs gs e at) q ; X.SpellsItem text i rest r
  | e alias #item => X.item s1.at s1.spelled s2
rule froms : takes f : Bool, is : List SelectItem, gs : List Expression, d at : ℕ ; with_select (selected f is [] gs d at) q ; - ; fs : List FromItem, e : ℕ ; with_select (selected f is fs gs e at) q ; X.SpellsFroms text fs rest r
  | from froms_more => X.one_from s1 ; s2
rule froms_more : takes f : Bool, is : List SelectItem, fs : List FromItem, gs : List Expression, d at : ℕ ; with_select (selected f is fs gs d at) q ; X.SpellsFroms text fs from rest ; hs : List FromItem, e : ℕ ; with_select (selected f is hs gs e at) q ; X.SpellsFroms text hs from r
  | , from froms_more => X.more_froms $pre w1 s2 ; s3
  | => $pre
rule from : takes f : Bool, is : List SelectItem, fs : List FromItem, gs : List Expression, d at : ℕ ; with_select (selected f is fs gs d at) q ; - ; t : TableReference, js : List Join, e : ℕ ; with_select (selected f is (fs ++ roll-FromItem (record { table = t; joins = js }) ∷ []) gs e at) q ; X.SpellsFrom text t js rest r
  | table #from joins #add_from => X.alone s1 ; s3
rule joins : takes f : BuiltFrom ; with_from f q ; X.SpellsFrom text f.table f.joins from rest ; g : BuiltFrom ; with_from g q ; X.SpellsFrom text g.table g.joins from r
  | INNER JOIN table ON e #inner_join joins => X.inner_join $pre (T.written_out w1) w2 s3 w4 s5.spelled ; s7
  | JOIN table ON e #inner_join joins => X.inner_join $pre T.left_out w1 s2 w3 s4.spelled ; s6
  | LEFT outer JOIN table ON e #left_join joins => X.left_join $pre w1 s2 w3 s4 w5 s6.spelled ; s8
  | CROSS JOIN table #cross_join joins => X.cross_join $pre w1 w2 s3 ; s5
  | => $pre
rule table : puts t : BuiltTable ; with_table t p ; X.SpellsTable text t.table rest r
  | name alias #table => X.named s1 s2
  | ( query ) as name #derived => X.derived w1 s2 w3 s4 s5
rule where, update_where, delete_where : puts o : BuiltOptional ; with_optional o p ; X.SpellsBehind text class.WHERE o.tree rest r
  | WHERE e #written => X.behind w1 s2.spelled
  | #unwritten => X.nothing_behind
rule having : puts o : BuiltOptional ; with_optional o p ; X.SpellsBehind text class.HAVING o.tree rest r
  | HAVING e #written => X.behind w1 s2.spelled
  | #unwritten => X.nothing_behind
rule else : puts o : BuiltOptional ; with_optional o p ; X.SpellsBehind text class.ELSE o.tree rest r
  | ELSE e #written => X.behind w1 s2.spelled
  | #unwritten => X.nothing_behind
rule group : takes f : Bool, is : List SelectItem, fs : List FromItem, d at : ℕ ; with_select (selected f is fs [] d at) q ; - ; gs : List Expression, e : ℕ ; with_select (selected f is fs gs e at) q ; X.SpellsGroup text gs rest r
  | GROUP BY e #group group_more => X.one_expression s3.spelled ; X.group w1 w2 s5
  | => X.no_group
rule group_more : takes f : Bool, is : List SelectItem, fs : List FromItem, gs : List Expression, d at : ℕ ; with_select (selected f is fs gs d at) q ; X.SpellsExpressions text gs from rest ; hs : List Expression, e : ℕ ; with_select (selected f is fs hs e at) q ; X.SpellsExpressions text hs from r
  | , e #group group_more => X.more_expressions $pre w1 s2.spelled ; s4
  | => $pre
rule es : puts x : BuiltList ; with_list x p ; X.SpellsExpressions text x.trees rest r
  | e #first es_more => X.one_expression s1.spelled ; s3
rule es_more : takes x : BuiltList ; with_list x q ; X.SpellsExpressions text x.trees from rest ; y : BuiltList ; with_list y q ; X.SpellsExpressions text y.trees from r
  | , e #next es_more => X.more_expressions $pre w1 s2.spelled ; s4
  | => $pre
rule rows : takes d at : ℕ ; with_rows (record { rows = []; depth = d; at = at }) q ; - ; rs : List ValuesRow, e : ℕ ; with_rows (record { rows = rs; depth = e; at = at }) q ; X.SpellsRows text rs rest r
  | row rows_more => X.one_row s1 ; s2
rule rows_more : takes rs : List ValuesRow, d at : ℕ ; with_rows (record { rows = rs; depth = d; at = at }) q ; X.SpellsRows text rs from rest ; ss : List ValuesRow, e : ℕ ; with_rows (record { rows = ss; depth = e; at = at }) q ; X.SpellsRows text ss from r
  | , row rows_more => X.more_rows $pre w1 s2 ; s3
  | => $pre
rule row : takes rs : List ValuesRow, d at : ℕ ; with_rows (record { rows = rs; depth = d; at = at }) q ; - ; x : ValuesRow, e : ℕ ; with_rows (record { rows = rs ++ x ∷ []; depth = e; at = at }) q ; X.SpellsRow text x rest r
  | ( es ) #row => X.row w1 s2 w3
rule alias : puts a : Option Identifier ; with_alias a p ; L.SpellsAlias text a rest r
  | AS name #alias => L.alias (T.written_out w1) s2
  | name #alias => L.alias T.left_out s1
  | #no_alias => L.no_alias

rule insert : puts x : Stmt ; with_statement x p ; Z.SpellsStatement text x rest r
  | INSERT INTO name #insert source => (_, _, w1, w2, s3) ; s5
rule source : takes t : Identifier ; with_target (record { table = t; columns = [] }) q ; (a b : List Token) × T.Word text class.INSERT from a × T.Word text class.INTO a b × T.Name text t b rest ; x : Stmt ; with_statement x q ; Z.SpellsStatement text x from r
  | ( #at names ) #insert_columns contents => (_, _, _, $pre.2, $pre.3, $pre.4, Z.columns w1 s3 w4) ; s6
  | contents => (_, _, _, $pre.2, $pre.3, $pre.4, Z.no_columns) ; s1
rule contents : takes t : Identifier, cs : List Identifier ; with_target (record { table = t; columns = cs }) q ; (a b c : List Token) × T.Word text class.INSERT from a × T.Word text class.INTO a b × T.Name text t b c × Z.SpellsColumns text cs c rest ; x : Stmt ; with_statement x q ; Z.SpellsStatement text x from r
  | VALUES #tuples tuples #insert_tuples => Z.insert $pre.3 $pre.4 $pre.5 $pre.6 (Z.tuples w1 s3)
  | inserted_query #insert_query => Z.insert $pre.3 $pre.4 $pre.5 $pre.6 s1
rule tuples : takes d at : ℕ ; with_tuples (record { tuples = []; depth = d; at = at }) q ; - ; ts : List (List NewValue), e : ℕ ; with_tuples (record { tuples = ts; depth = e; at = at }) q ; Z.SpellsTuples text ts rest r
  | tuple tuples_more => Z.one_tuple s1 ; s2
rule tuples_more : takes ts : List (List NewValue), d at : ℕ ; with_tuples (record { tuples = ts; depth = d; at = at }) q ; Z.SpellsTuples text ts from rest ; us : List (List NewValue), e : ℕ ; with_tuples (record { tuples = us; depth = e; at = at }) q ; Z.SpellsTuples text us from r
  | , tuple tuples_more => Z.more_tuples $pre w1 s2 ; s3
  | => $pre
rule tuple : takes ts : List (List NewValue), d at : ℕ ; with_tuples (record { tuples = ts; depth = d; at = at }) q ; - ; t : List NewValue, e : ℕ ; with_tuples (record { tuples = ts ++ t ∷ []; depth = e; at = at }) q ; Z.SpellsTuple text t rest r
  | ( #tuple tuple_value values_more ) #add_tuple => Z.one_value s3 ; Z.tuple w1 s4 w5
rule values_more : takes vs : List NewValue, d : ℕ ; with_tuple (record { values = vs; depth = d }) q ; Z.SpellsValues text vs from rest ; us : List NewValue, e : ℕ ; with_tuple (record { values = us; depth = e }) q ; Z.SpellsValues text us from r
  | , tuple_value values_more => Z.more_values $pre w1 s2 ; s3
  | => $pre
rule tuple_value : takes vs : List NewValue, d : ℕ ; with_tuple (record { values = vs; depth = d }) q ; - ; v : NewValue, e : ℕ ; with_tuple (record { values = vs ++ v ∷ []; depth = e }) q ; Z.SpellsValue text v rest r
  | e #tuple_value => Z.of_expression s1.spelled
  | DEFAULT #tuple_default => Z.default_value (first_at w1) w1
rule inserted_query : puts x : BuiltQuery ; with_query x p ; Z.SpellsSource text (source.Query (query_of x)) rest r
  | SELECT #at select query_tail => (w1, first_at w1) ; (loose_body s3, begins_otherwise (λ e. omega (arith, e)) w1) ; s4
  | ( #at body ) #bracket_body query_tail => (loose_body (in_brackets w1 s3 w4), begins_otherwise (λ e. omega (arith, e)) w1) ; s6
  | VALUES #tuples rows_of_values #tuples_body behind_rows => made_body (X.values (first_at w1) w1 s3) ; s5
rule query_tail : takes a : BuiltBody ; with_body a q ; IsBody text X.term a from rest × Z.IsNoTuples text a.tree from ; x : BuiltQuery ; with_query x q ; Z.SpellsSource text (source.Query (query_of x)) from r
  | term_more body_more #query ordering limiting => $pre.0 ; loose_body s1.0 ; x2.depth 0 ; whole_source s2.0.spelled (no_tuples x1.tree x2.tree (no_tuples $a.tree x1.tree $pre.1 s1.1) s2.1) s4 s5
rule rows_of_values : takes d at : ℕ ; with_tuples (record { tuples = []; depth = d; at = at }) q ; - ; ts : List (List NewValue), e : ℕ ; with_tuples (record { tuples = ts; depth = e; at = at }) q ; X.SpellsRows text (rows_in ts) rest r
  | row_of_values rows_of_values_more => X.one_row s1 ; s2
rule rows_of_values_more : takes ts : List (List NewValue), d at : ℕ ; with_tuples (record { tuples = ts; depth = d; at = at }) q ; X.SpellsRows text (rows_in ts) from rest ; us : List (List NewValue), e : ℕ ; with_tuples (record { tuples = us; depth = e; at = at }) q ; X.SpellsRows text (rows_in us) from r
  | , row_of_values rows_of_values_more => more_of_tuples $ts x2 $pre w1 s2 ; s3
  | => $pre
rule row_of_values : takes ts : List (List NewValue), d at : ℕ ; with_tuples (record { tuples = ts; depth = d; at = at }) q ; - ; t : List NewValue, e : ℕ ; with_tuples (record { tuples = ts ++ t ∷ []; depth = e; at = at }) q ; X.SpellsRow text (row_of t) rest r
  | ( #tuple e #tuple_value row_of_values_more ) #add_tuple => X.one_expression s3.spelled ; X.row w1 s5 w6
rule row_of_values_more : takes vs : List NewValue, d : ℕ ; with_tuple (record { values = vs; depth = d }) q ; X.SpellsExpressions text (expressions_in vs) from rest ; us : List NewValue, e : ℕ ; with_tuple (record { values = us; depth = e }) q ; X.SpellsExpressions text (expressions_in us) from r
  | , e #tuple_value row_of_values_more => more_of_values $vs x2.tree $pre w1 s2.spelled ; s4
  | => $pre
rule behind_rows : takes a : BuiltBody ; with_body a q ; IsBody text X.core a from rest ; x : BuiltQuery ; with_query x q ; Z.SpellsSource text (source.Query (query_of x)) from r
  | INTERSECT core #intersect query_tail => $a.depth x2.depth ; (made_body (X.intersect (X.closer_body $pre.spelled) w1 s2.spelled), Z.set_operation _ _ _) ; s4
  | UNION union body_more #query ordering limiting => (_, loosest_body $pre, w1) ; s2.0 ; x3.depth 0 ; whole_source s3.0.spelled (set_no_tuples (grew_on x2.tree x3.tree s2.1 s3.1)) s5 s6
  | EXCEPT term #except body_more #query ordering limiting => $a.depth x2.depth ; made_body (X.except (X.closer_body (X.closer_body $pre.spelled)) w1 s2.spelled) ; x4.depth 0 ; whole_source s4.0.spelled (set_no_tuples (grew_on _ x4.tree (_, _, _, refl) s4.1)) s6 s7
  | #query ordered => $a.depth 0 ; Z.of_ordered (X.closer_body (X.closer_body $pre.spelled)) s2

rule update : puts x : Stmt ; with_statement x p ; Z.SpellsStatement text x rest r
  | UPDATE name alias #update SET pair pairs_more update_where #update_statement => Z.one_assignment s6 ; Z.update w1 s2 s3 w5 s7 s8
rule pairs_more : takes t : Identifier, a : Option Identifier, xs : List Assignment, o : Option Expression ; with_update (record { table = t; alias = a; assignments = xs; filter = o }) q ; Z.SpellsAssignments text xs from rest ; ys : List Assignment ; with_update (record { table = t; alias = a; assignments = ys; filter = o }) q ; Z.SpellsAssignments text ys from r
  | , pair pairs_more => Z.more_assignments $pre w1 s2 ; s3
  | => $pre
rule pair : takes t : Identifier, a : Option Identifier, xs : List Assignment, o : Option Expression ; with_update (record { table = t; alias = a; assignments = xs; filter = o }) q ; - ; y : Assignment ; with_update (record { table = t; alias = a; assignments = xs ++ y ∷ []; filter = o }) q ; Z.SpellsAssignment text y rest r
  | name = value => (_, s1, w2) ; s3
rule value : takes n t : Identifier, a : Option Identifier, xs : List Assignment, o : Option Expression ; with_name n (with_update (record { table = t; alias = a; assignments = xs; filter = o }) q) ; (c : List Token) × T.Name text n from c × T.Word text class.equal c rest ; y : Assignment ; with_update (record { table = t; alias = a; assignments = xs ++ y ∷ []; filter = o }) q ; Z.SpellsAssignment text y from r
  | e #assign => Z.assignment $pre.1 $pre.2 (Z.of_expression s1.spelled)
  | DEFAULT #assign_default => Z.assignment $pre.1 $pre.2 (Z.default_value (first_at w1) w1)
rule delete : puts x : Stmt ; with_statement x p ; Z.SpellsStatement text x rest r
  | DELETE FROM name alias #delete delete_where #delete_statement => Z.delete w1 w2 s3 s4 s6
rule lock : puts x : Stmt ; with_statement x p ; Z.SpellsStatement text x rest r
  | LOCK TABLE #lock claim claims_more #lock_statement => Z.one_claim s4 ; Z.lock w1 w2 s5
rule claims_more : takes xs : List LockedTable ; with_locks xs q ; Z.SpellsClaims text xs from rest ; ys : List LockedTable ; with_locks ys q ; Z.SpellsClaims text ys from r
  | , claim claims_more => Z.more_claims $pre w1 s2 ; s3
  | => $pre
rule claim : takes xs : List LockedTable ; with_locks xs q ; - ; y : LockedTable ; with_locks (xs ++ y ∷ []) q ; Z.SpellsClaim text y rest r
  | name claimed => s1 ; s2
rule claimed : takes n : Identifier, xs : List LockedTable ; with_name n (with_locks xs q) ; T.Name text n from rest ; y : LockedTable ; with_locks (xs ++ y ∷ []) q ; Z.SpellsClaim text y from r
  | READ #lock_read => Z.read_claim $pre w1
  | WRITE #lock_write => Z.write_claim $pre w1

rule create : puts x : Stmt ; with_statement x p ; Z.SpellsStatement text x rest r
  | CREATE created => s2 _ w1
rule created : puts x : Stmt ; with_statement x p ; (a : List Token) → T.Word text class.CREATE a rest → Z.SpellsStatement text x a r
  | MEMORY TABLE table_definition => λ a v. s3 a (_, _, v, T.written_out w1, w2)
  | TABLE table_definition => λ a v. s2 a (_, _, v, T.left_out, w1)
  | INDEX name ON name ( names ) #create_index => λ a v. Z.create_index v w1 s2 w3 s4 w5 s6 w7
rule table_definition : puts x : Stmt ; with_statement x p ; (a : List Token) → (b : List Token) × (c : List Token) × T.Word text class.CREATE a b × T.Maybe text class.MEMORY b c × T.Word text class.TABLE c rest → Z.SpellsStatement text x a r
  | name #memory ( element elements_more ) #create_statement => Z.one_element s4 ; λ a v. Z.create_table v.2 v.3 v.4 s1 w3 s5 w6
rule elements_more : takes g : Storage, n : Identifier, xs : List TableElement ; with_definition (record { storage = g; name = n; elements = xs }) q ; Z.SpellsElements text xs from rest ; ys : List TableElement ; with_definition (record { storage = g; name = n; elements = ys }) q ; Z.SpellsElements text ys from r
  | , element elements_more => Z.more_elements $pre w1 s2 ; s3
  | => $pre
rule element : takes g : Storage, n : Identifier, xs : List TableElement ; with_definition (record { storage = g; name = n; elements = xs }) q ; - ; y : TableElement ; with_definition (record { storage = g; name = n; elements = xs ++ y ∷ [] }) q ; Z.SpellsElement text y rest r
  | column #column_element => Z.column_element s1
  | table_constraint #constraint_element => Z.constraint_element s1
rule column : puts c : ColumnDefinition ; with_column c p ; Z.SpellsColumn text c rest r
  | name type #define default column_constraints => Z.no_constraints ; Z.column_of s1 s2 s4 s5
rule default : takes n : Identifier, t : DataType, cs : List ColumnConstraint ; with_column (record { name = n; data_type = t; default = None; constraints = cs }) q ; - ; d : Option DefaultValue ; with_column (record { name = n; data_type = t; default = d; constraints = cs }) q ; Z.SpellsDefault text d rest r
  | DEFAULT signed_literal #default => Z.a_default w1 s2.1 s2.0
  | => Z.no_default
rule signed_literal : puts x : PlacedLiteral ; with_literal x p ; L.SpellsSigned text x.literal rest r × (x.at ≡ start_of rest)
  | literal => (L.unsigned s1.0, s1.1)
  | + #at number #plus_number => (L.with_a_sign L.plus_sign w1 s3.0, first_at w1)
  | - #at number #minus_number => (L.with_a_sign L.minus_sign w1 s3.0, first_at w1)
rule column_constraints : takes n : Identifier, t : DataType, d : Option DefaultValue, cs : List ColumnConstraint ; with_column (record { name = n; data_type = t; default = d; constraints = cs }) q ; Z.SpellsColumnConstraints text cs from rest ; ds : List ColumnConstraint ; with_column (record { name = n; data_type = t; default = d; constraints = ds }) q ; Z.SpellsColumnConstraints text ds from r
  | CONSTRAINT #at name #named column_rule column_constraints => (Z.named w1 s3, first_at w1) ; Z.more_constraints $pre s5 ; s6
  | #here #unnamed column_rule column_constraints => (Z.unnamed, refl) ; Z.more_constraints $pre s3 ; s4
  | => $pre
rule column_rule : takes at : ℕ, o : Option Identifier, n : Identifier, t : DataType, d : Option DefaultValue, cs : List ColumnConstraint ; with_header (record { at = at; name = o }) (with_column (record { name = n; data_type = t; default = d; constraints = cs }) q) ; Z.SpellsHeader text o from rest × (at ≡ start_of from) ; c : ColumnConstraint ; with_column (record { name = n; data_type = t; default = d; constraints = cs ++ c ∷ [] }) q ; Z.SpellsColumnConstraint text c from r
  | NOT NULL #not_null => Z.column_constraint $pre.1 $pre.0 (Z.not_null w1 w2)
  | PRIMARY KEY #column_primary => Z.column_constraint $pre.1 $pre.0 (Z.column_primary w1 w2)
  | UNIQUE #column_unique => Z.column_constraint $pre.1 $pre.0 (Z.column_unique w1)
  | CHECK ( e ) #column_check => Z.column_constraint $pre.1 $pre.0 (Z.column_check w1 w2 s3.spelled w4)
  | REFERENCES name #references referenced_name actions #column_references => Z.no_changes ; Z.column_constraint $pre.1 $pre.0 (Z.references w1 s2 s4 s5)
rule referenced_name : takes n : Identifier, x y : ReferentialAction ; with_key (record { parent = n; parent_columns = []; on_delete = x; on_update = y }) q ; - ; cs : List Identifier ; with_key (record { parent = n; parent_columns = cs; on_delete = x; on_update = y }) q ; Z.SpellsParent text cs rest r
  | ( name #first_name ) #parent_columns => Z.one_parent w1 s2 w4
  | => Z.primary_key
rule referenced_names : takes n : Identifier, x y : ReferentialAction ; with_key (record { parent = n; parent_columns = []; on_delete = x; on_update = y }) q ; - ; cs : List Identifier ; with_key (record { parent = n; parent_columns = cs; on_delete = x; on_update = y }) q ; Z.SpellsColumns text cs rest r
  | ( names ) #parent_columns => Z.columns w1 s2 w3
  | => Z.no_columns
rule table_constraint : puts c : TableConstraint ; with_constraint c p ; Z.SpellsTableConstraint text c rest r
  | CONSTRAINT #at name #named table_rule => (Z.named w1 s3, first_at w1) ; s5
  | #here #unnamed table_rule => (Z.unnamed, refl) ; s3
rule table_rule : takes at : ℕ, o : Option Identifier ; with_header (record { at = at; name = o }) q ; Z.SpellsHeader text o from rest × (at ≡ start_of from) ; c : TableConstraint ; with_constraint c q ; Z.SpellsTableConstraint text c from r
  | PRIMARY KEY ( names ) #table_primary => Z.table_constraint $pre.1 $pre.0 (Z.table_primary w1 w2 w3 s4 w5)
  | UNIQUE ( names ) #table_unique => Z.table_constraint $pre.1 $pre.0 (Z.table_unique w1 w2 s3 w4)
  | CHECK ( e ) #table_check => Z.table_constraint $pre.1 $pre.0 (Z.table_check w1 w2 s3.spelled w4)
  | FOREIGN KEY ( names ) REFERENCES name #references referenced_names actions #table_foreign => Z.no_changes ; Z.table_constraint $pre.1 $pre.0 (Z.foreign_key w1 w2 w3 s4 w5 w6 s7 s9 s10)
rule actions : takes x k : ForeignKey ; with_key k q ; Z.SpellsChanges text x k from rest ; l : ForeignKey ; with_key l q ; Z.SpellsChanges text x l from r
  | ON acting actions => w1 ; Z.more_changes $pre s2 ; s3
  | => $pre
rule acting : takes k : ForeignKey ; with_key k q ; T.Word text class.ON from rest ; l : ForeignKey ; with_key l q ; Z.SpellsChange text k l from r
  | DELETE action #on_delete => Z.on_delete $pre w1 s2
  | UPDATE action #on_update => Z.on_update $pre w1 s2
rule action : puts a : ReferentialAction ; with_action a p ; Z.SpellsAction text a rest r
  | CASCADE #cascade => Z.cascade w1
  | SET set_to => s2 _ w1
  | RESTRICT #restrict => Z.restrict w1
  | NO ACTION #no_action => Z.no_action w1 w2
rule set_to : puts x : ReferentialAction ; with_action x p ; (a : List Token) → T.Word text class.SET a rest → Z.SpellsAction text x a r
  | NULL #set_null => λ a v. Z.set_null v w1
  | DEFAULT #set_default => λ a v. Z.set_default v w1
rule type : puts t : DataType ; with_type t p ; L.SpellsType text t rest r
  | SMALLINT #smallint => L.type_word L.smallint w1
  | INTEGER #integer => L.type_word L.integer w1
  | INT #integer => L.type_word L.int w1
  | BIGINT #bigint => L.type_word L.bigint w1
  | DECIMAL decimal => s2 _ (L.decimal w1)
  | NUMERIC decimal => s2 _ (L.numeric w1)
  | VARCHAR ( <1..4000> #number ) #varchar => L.varchar w1 w2 (whole_number text w3) w5
  | BOOLEAN #boolean => L.type_word L.boolean w1
  | DATE #date_type => L.type_word L.date w1
  | TIMESTAMP #timestamp_type => L.type_word L.timestamp w1
rule decimal : puts t : DataType ; with_type t p ; (a : List Token) → L.SpellsDecimal text a rest → L.SpellsType text t a r
  | ( <1..38> #number #decimal ) => λ a v. L.decimal_of v w1 (whole_number text w2) w5
  | ( <p,s> #decimal_scale ) => λ a v. L.decimal_scale v w1 (precision_of text w2) w2.comma (scale_of text w2) w2.not_above w4
  | #decimal_default => λ a v. L.decimal_alone v
rule alter : puts x : Stmt ; with_statement x p ; Z.SpellsStatement text x rest r
  | ALTER TABLE name altered => (_, _, w1, w2, s3) ; s4
rule altered : takes n : Identifier ; with_name n q ; (a b : List Token) × T.Word text class.ALTER from a × T.Word text class.TABLE a b × T.Name text n b rest ; x : Stmt ; with_statement x q ; Z.SpellsStatement text x from r
  | ADD added => (_, _, _, $pre.2, $pre.3, $pre.4, w1) ; s2
  | DROP CONSTRAINT name #drop_constraint => Z.alter_table $pre.2 $pre.3 $pre.4 (Z.drop_constraint w1 w2 s3)
rule added : takes n : Identifier ; with_name n q ; (a b c : List Token) × T.Word text class.ALTER from a × T.Word text class.TABLE a b × T.Name text n b c × T.Word text class.ADD c rest ; x : Stmt ; with_statement x q ; Z.SpellsStatement text x from r
  | COLUMN column #add_column => Z.alter_table $pre.3 $pre.4 $pre.5 (Z.add_column $pre.6 w1 s2)
  | table_constraint #add_constraint => Z.alter_table $pre.3 $pre.4 $pre.5 (Z.add_constraint $pre.6 s1)
rule drop : puts x : Stmt ; with_statement x p ; Z.SpellsStatement text x rest r
  | DROP dropped => s2 _ w1
rule dropped : puts x : Stmt ; with_statement x p ; (a : List Token) → T.Word text class.DROP a rest → Z.SpellsStatement text x a r
  | TABLE name #drop_table => λ a v. Z.drop_table v w1 s2
  | INDEX name #drop_index => λ a v. Z.drop_index v w1 s2
rule set : puts x : Stmt ; with_statement x p ; Z.SpellsStatement text x rest r
  | SET setting => s2 _ w1
rule setting : puts x : Stmt ; with_statement x p ; (a : List Token) → T.Word text class.SET a rest → Z.SpellsStatement text x a r
  | DATABASE database_setting => λ a v. s2 _ _ v w1
  | AUTOCOMMIT truth => λ a v. s2 _ _ v w1
  | TRANSACTION modes #set_transaction => λ a v. Z.set_transaction v w1 s2
  | SESSION CHARACTERISTICS AS TRANSACTION modes #set_characteristics => λ a v. Z.set_characteristics v w1 w2 w3 w4 s5
  | FILES WRITE DELAY write_delay => λ a v. s4 _ _ _ _ v w1 w2 w3
rule database_setting : puts x : Stmt ; with_statement x p ; (a b : List Token) → T.Word text class.SET a b → T.Word text class.DATABASE b rest → Z.SpellsStatement text x a r
  | TRANSACTION CONTROL control => λ a b v w. s3 _ _ _ _ v w w1 w2
  | DEFAULT ISOLATION LEVEL default_level => λ a b v w. s4 _ _ _ _ _ v w w1 w2 w3
rule control : puts x : Stmt ; with_statement x p ; (a b c d : List Token) → T.Word text class.SET a b → T.Word text class.DATABASE b c → T.Word text class.TRANSACTION c d → T.Word text class.CONTROL d rest → Z.SpellsStatement text x a r
  | LOCKS #control_locks => λ a b c d v w x y. Z.set_locks v w x y w1
  | MVLOCKS #control_mvlocks => λ a b c d v w x y. Z.set_mvlocks v w x y w1
  | MVCC #control_mvcc => λ a b c d v w x y. Z.set_mvcc v w x y w1
rule default_level : puts x : Stmt ; with_statement x p ; (a b c d e : List Token) → T.Word text class.SET a b → T.Word text class.DATABASE b c → T.Word text class.DEFAULT c d → T.Word text class.ISOLATION d e → T.Word text class.LEVEL e rest → Z.SpellsStatement text x a r
  | READ default_committed => λ a b c d e v w x y z. s2 _ _ _ _ _ _ v w x y z w1
  | SERIALIZABLE #default_serializable => λ a b c d e v w x y z. Z.default_serializable v w x y z w1
rule default_committed : puts x : Stmt ; with_statement x p ; (a b c d e f : List Token) → T.Word text class.SET a b → T.Word text class.DATABASE b c → T.Word text class.DEFAULT c d → T.Word text class.ISOLATION d e → T.Word text class.LEVEL e f → T.Word text class.READ f rest → Z.SpellsStatement text x a r
  | COMMITTED #default_read_committed => λ a b c d e f v w x y z u. Z.default_read_committed v w x y z u w1
rule truth : puts x : Stmt ; with_statement x p ; (a b : List Token) → T.Word text class.SET a b → T.Word text class.AUTOCOMMIT b rest → Z.SpellsStatement text x a r
  | TRUE #autocommit_true => λ a b v w. Z.autocommit_on v w w1
  | FALSE #autocommit_false => λ a b v w. Z.autocommit_off v w w1
rule write_delay : puts x : Stmt ; with_statement x p ; (a b c d : List Token) → T.Word text class.SET a b → T.Word text class.FILES b c → T.Word text class.WRITE c d → T.Word text class.DELAY d rest → Z.SpellsStatement text x a r
  | FALSE #write_delay_false => λ a b c d v w x y. Z.write_delay_false v w x y w1

rule e : puts b : Built ; with_e b p ; IsBuilt text X.disjunction b rest r
  | conjunction or_more => loose s1 ; s2
rule or_more : takes a : Built ; with_e a q ; IsBuilt text X.disjunction a from rest ; b : Built ; with_e b q ; IsBuilt text X.disjunction b from r
  | OR conjunction #or or_more => $a.depth x2.depth ; made $pre.at (X.binary X.or $pre.spelled w1 s2.spelled) ; s4
  | => $pre
rule conjunction : puts b : Built ; with_e b p ; IsBuilt text X.conjunction b rest r
  | negation and_more => loose s1 ; s2
rule and_more : takes a : Built ; with_e a q ; IsBuilt text X.conjunction a from rest ; b : Built ; with_e b q ; IsBuilt text X.conjunction b from r
  | AND negation #and and_more => $a.depth x2.depth ; made $pre.at (X.binary X.and $pre.spelled w1 s2.spelled) ; s4
  | => $pre
rule negation : puts b : Built ; with_e b p ; IsBuilt text X.negation b rest r
  | NOT #at negation #not => x3.depth 0 ; made (first_at w1) (X.not w1 s3.spelled)
  | EXISTS #at ( query ) #exists => x4.depth 0 ; made (first_at w1) (X.exists w1 w3 s4 w5)
  | sum compared => s1 ; s2
rule compared : takes a : Built ; with_e a q ; IsBuilt text X.sum a from rest ; b : Built ; with_e b q ; IsBuilt text X.negation b from r
  | comparison => $pre ; s1
  | => loose $pre
rule comparison : takes a : Built ; with_e a q ; IsBuilt text X.sum a from rest ; b : Built ; with_e b q ; IsBuilt text X.negation b from r
  | = sum #equal => $a.depth x2.depth ; made $pre.at (X.binary X.equal $pre.spelled w1 s2.spelled)
  | <> sum #not_equal => $a.depth x2.depth ; made $pre.at (X.binary X.unequal $pre.spelled w1 s2.spelled)
  | != sum #not_equal => $a.depth x2.depth ; made $pre.at (X.binary X.not_equal $pre.spelled w1 s2.spelled)
  | < sum #less => $a.depth x2.depth ; made $pre.at (X.binary X.less $pre.spelled w1 s2.spelled)
  | <= sum #less_or_equal => $a.depth x2.depth ; made $pre.at (X.binary X.less_or_equal $pre.spelled w1 s2.spelled)
  | > sum #greater => $a.depth x2.depth ; made $pre.at (X.binary X.greater $pre.spelled w1 s2.spelled)
  | >= sum #greater_or_equal => $a.depth x2.depth ; made $pre.at (X.binary X.greater_or_equal $pre.spelled w1 s2.spelled)
  | IS is => (_, $pre, w1) ; s2
  | NOT #yes negated => (_, $pre, T.yes w1) ; s3
  | #no negated => (_, $pre, T.no) ; s2
rule is : takes a : Built ; with_e a q ; (c : List Token) × IsBuilt text X.sum a from c × T.Word text class.IS c rest ; b : Built ; with_e b q ; IsBuilt text X.negation b from r
  | NULL #is_null => $a.depth 0 ; made $pre.1.at (X.is_null $pre.1.spelled $pre.2 T.no w1)
  | NOT NULL #is_not_null => $a.depth 0 ; made $pre.1.at (X.is_null $pre.1.spelled $pre.2 (T.yes w1) w2)
rule negated : takes f : Bool, a : Built ; with_flag f (with_e a q) ; (c : List Token) × IsBuilt text X.sum a from c × T.Flag text class.NOT f c rest ; b : Built ; with_e b q ; IsBuilt text X.negation b from r
  | BETWEEN sum AND sum #between => $a.depth (max x2.depth x4.depth) ; made $pre.1.at (X.between $pre.1.spelled $pre.2 w1 s2.spelled w3 s4.spelled)
  | IN ( in => (_, _, _, $pre.1, $pre.2, w1, w2) ; s3
  | LIKE sum escape => (_, _, _, $pre.1, $pre.2, w1, s2) ; s3
rule in : takes f : Bool, a : Built ; with_flag f (with_e a q) ; (c d e : List Token) × IsBuilt text X.sum a from c × T.Flag text class.NOT f c d × T.Word text class.IN d e × T.Word text class.left_parenthesis e rest ; b : Built ; with_e b q ; IsBuilt text X.negation b from r
  | query ) #in_query => $a.depth x1.depth ; made $pre.3.at (X.in_query $pre.3.spelled $pre.4 $pre.5 $pre.6 s1 w2)
  | es ) #in_list => $a.depth x1.depth ; made $pre.3.at (X.in_list $pre.3.spelled $pre.4 $pre.5 $pre.6 s1 w2)
rule escape : takes f : Bool, b a : Built ; with_flag f (with_e b (with_e a q)) ; (c d e : List Token) × IsBuilt text X.sum a from c × T.Flag text class.NOT f c d × T.Word text class.LIKE d e × IsBuilt text X.sum b e rest ; y : Built ; with_e y q ; IsBuilt text X.negation y from r
  | ESCAPE text #like_escape => $a.depth $b.depth ; made $pre.3.at (X.like $pre.3.spelled $pre.4 $pre.5 $pre.6.spelled (X.escape w1 s2.0))
  | #like => $a.depth $b.depth ; made $pre.3.at (X.like $pre.3.spelled $pre.4 $pre.5 $pre.6.spelled X.no_escape)
rule sum : puts b : Built ; with_e b p ; IsBuilt text X.sum b rest r
  | product sum_more => loose s1 ; s2
rule sum_more : takes a : Built ; with_e a q ; IsBuilt text X.sum a from rest ; b : Built ; with_e b q ; IsBuilt text X.sum b from r
  | addition sum_more => $pre ; s1 ; s2
  | => $pre
rule addition : takes a : Built ; with_e a q ; IsBuilt text X.sum a from rest ; b : Built ; with_e b q ; IsBuilt text X.sum b from r
  | + product #add => $a.depth x2.depth ; made $pre.at (X.binary X.add $pre.spelled w1 s2.spelled)
  | - product #subtract => $a.depth x2.depth ; made $pre.at (X.binary X.subtract $pre.spelled w1 s2.spelled)
  | || product #concatenate => $a.depth x2.depth ; made $pre.at (X.binary X.concatenate $pre.spelled w1 s2.spelled)
rule product : puts b : Built ; with_e b p ; IsBuilt text X.product b rest r
  | unary product_more => loose s1 ; s2
rule product_more : takes a : Built ; with_e a q ; IsBuilt text X.product a from rest ; b : Built ; with_e b q ; IsBuilt text X.product b from r
  | multiplication product_more => $pre ; s1 ; s2
  | => $pre
rule multiplication : takes a : Built ; with_e a q ; IsBuilt text X.product a from rest ; b : Built ; with_e b q ; IsBuilt text X.product b from r
  | * unary #multiply => $a.depth x2.depth ; made $pre.at (X.binary X.multiply $pre.spelled w1 s2.spelled)
  | / unary #divide => $a.depth x2.depth ; made $pre.at (X.binary X.divide $pre.spelled w1 s2.spelled)
rule unary : puts b : Built ; with_e b p ; IsBuilt text X.sign b rest r
  | sign => s1
  | primary => loose s1
rule sign : puts b : Built ; with_e b p ; IsBuilt text X.sign b rest r
  | - #at primary #minus => x3.depth 0 ; made (first_at w1) (X.signed L.minus_sign w1 s3.spelled)
  | + #at primary #plus => x3.depth 0 ; made (first_at w1) (X.signed L.plus_sign w1 s3.spelled)
rule primary : puts b : Built ; with_e b p ; IsBuilt text X.primary b rest r
  | simple intervals => s1 ; s2
  | ( #at e ) #bracket intervals => record { spelled = X.in_parentheses w1 s3.spelled w4; at = first_at w1 } ; s6
  | ( #at body ) #body_subquery intervals => x3.depth 0 ; made_subquery w1 s3 w4 ; s6
  | ( #at body #query ordered ) #subquery intervals => x3.depth 0 ; made (first_at w1) (X.ordered_subquery w1 s3.spelled s5 w6) ; s8
rule intervals : takes a : Built ; with_e a q ; IsBuilt text X.primary a from rest ; b : Built ; with_e b q ; IsBuilt text X.primary b from r
  | interval intervals => $pre ; s1 ; s2
  | => $pre
rule interval : takes a : Built ; with_e a q ; IsBuilt text X.primary a from rest ; b : Built ; with_e b q ; IsBuilt text X.primary b from r
  | + INTERVAL digit_text #text #digits plus_unit => (_, _, _, $pre, w1, w2, digits text w3) ; s6
  | - INTERVAL digit_text #text #digits minus_unit => (_, _, _, $pre, w1, w2, digits text w3) ; s6
rule plus_unit : takes a : Built, n : ℕ ; with_e a (with_count n q) ; (c d e : List Token) × IsBuilt text X.primary a from c × T.Word text class.plus c d × T.Word text class.INTERVAL d e × T.Digits text n e rest ; b : Built ; with_e b q ; IsBuilt text X.primary b from r
  | DAY #plus_days => $a.depth 0 ; made $pre.3.at (X.interval L.plus_sign X.days $pre.3.spelled $pre.4 $pre.5 $pre.6 w1)
  | MONTH #plus_months => $a.depth 0 ; made $pre.3.at (X.interval L.plus_sign X.months $pre.3.spelled $pre.4 $pre.5 $pre.6 w1)
rule minus_unit : takes a : Built, n : ℕ ; with_e a (with_count n q) ; (c d e : List Token) × IsBuilt text X.primary a from c × T.Word text class.minus c d × T.Word text class.INTERVAL d e × T.Digits text n e rest ; b : Built ; with_e b q ; IsBuilt text X.primary b from r
  | DAY #minus_days => $a.depth 0 ; made $pre.3.at (X.interval L.minus_sign X.days $pre.3.spelled $pre.4 $pre.5 $pre.6 w1)
  | MONTH #minus_months => $a.depth 0 ; made $pre.3.at (X.interval L.minus_sign X.months $pre.3.spelled $pre.4 $pre.5 $pre.6 w1)
rule simple : puts b : Built ; with_e b p ; IsBuilt text X.primary b rest r
  | literal #literal => made s1.1 (X.literal s1.0)
  | name qualified => s1 ; s2
  | CAST #at ( e AS type ) #cast => x4.depth 0 ; made (first_at w1) (X.cast w1 w3 s4.spelled w5 s6 w7)
  | CASE #case arms else END #end => X.no_arms ; y3 x4.depth ; made (first_at w1) (X.case w1 s3 s4 w5)
  | COALESCE #at ( es ) #coalesce => x4.depth 0 ; made (first_at w1) (X.call X.coalesce w1 w3 s4 w5)
  | NULLIF #at ( es ) #nullif => x4.depth 0 ; made (first_at w1) (X.call X.nullif w1 w3 s4 w5)
  | ABS #at ( es ) #abs => x4.depth 0 ; made (first_at w1) (X.call X.abs w1 w3 s4 w5)
  | MOD #at ( es ) #mod => x4.depth 0 ; made (first_at w1) (X.call X.mod_call w1 w3 s4 w5)
  | UPPER #at ( es ) #upper => x4.depth 0 ; made (first_at w1) (X.call X.upper w1 w3 s4 w5)
  | LOWER #at ( es ) #lower => x4.depth 0 ; made (first_at w1) (X.call X.lower w1 w3 s4 w5)
  | CHAR_LENGTH #at ( es ) #char_length => x4.depth 0 ; made (first_at w1) (X.call X.char_length w1 w3 s4 w5)
  | SUBSTRING #at ( e FROM e for => (_, _, _, _, first_at w1, w1, w3, s4, w5, s6) ; s7
  | TRIM #at ( trim ) => (_, first_at w1, w1, w3) ; s4 _ w5
  | EXTRACT #at ( field FROM e ) #extract => x6.depth 0 ; made (first_at w1) (X.extract s4.1 w1 w3 s4.2 w5 s6.spelled w7)
  | COUNT #at ( count => (_, first_at w1, w1, w3) ; s4
  | SUM #at ( counted ) #sum => y4.depth 0 ; made (first_at w1) (X.aggregate X.summed w1 w3 s4.1 s4.2.spelled w5)
  | AVG #at ( counted ) #avg => y4.depth 0 ; made (first_at w1) (X.aggregate X.avg w1 w3 s4.1 s4.2.spelled w5)
  | MIN #at ( counted ) #min => y4.depth 0 ; made (first_at w1) (X.aggregate X.least w1 w3 s4.1 s4.2.spelled w5)
  | MAX #at ( counted ) #max => y4.depth 0 ; made (first_at w1) (X.aggregate X.greatest w1 w3 s4.1 s4.2.spelled w5)
rule qualified : takes n : Identifier ; with_name n q ; T.Name text n from rest ; b : Built ; with_e b q ; IsBuilt text X.primary b from r
  | . name #qualified => made (named_at text $pre) (X.qualified $pre w1 s2)
  | #column => made (named_at text $pre) (X.column $pre)
rule arms : takes xs : List CaseArm, d at : ℕ ; with_case (record { arms = xs; depth = d; at = at }) q ; X.SpellsArms text xs from rest ; ys : List CaseArm, e : ℕ ; with_case (record { arms = ys; depth = e; at = at }) q ; X.SpellsArms text ys from r
  | WHEN e THEN e #arm arms => X.more_arms $pre w1 s2.spelled w3 s4.spelled ; s6
  | => $pre
rule for : takes at : ℕ, s t : Built ; with_place at (with_e s (with_e t q)) ; (a b c d : List Token) × (at ≡ start_of from) × T.Word text class.SUBSTRING from a × T.Word text class.left_parenthesis a b × IsBuilt text X.disjunction t b c × T.Word text class.FROM c d × IsBuilt text X.disjunction s d rest ; y : Built ; with_e y q ; IsBuilt text X.primary y from r
  | FOR e ) #substring_for => $t.depth (max $s.depth x2.depth) ; made $pre.4 (X.substring $pre.5 $pre.6 $pre.7.spelled $pre.8 $pre.9.spelled (X.behind w1 s2.spelled) w3)
  | ) #substring => $t.depth $s.depth ; made $pre.4 (X.substring $pre.5 $pre.6 $pre.7.spelled $pre.8 $pre.9.spelled X.nothing_behind w1)
rule trim : takes at : ℕ ; with_place at q ; (a : List Token) × (at ≡ start_of from) × T.Word text class.TRIM from a × T.Word text class.left_parenthesis a rest ; b : Built ; with_e b q ; (c : List Token) → T.Word text class.right_parenthesis r c → IsBuilt text X.primary b from c
  | LEADING #leading trim_side => (_, _, $pre.1, $pre.2, $pre.3, X.leading w1) ; s3
  | TRAILING #trailing trim_side => (_, _, $pre.1, $pre.2, $pre.3, X.trailing w1) ; s3
  | BOTH #both trim_side => (_, _, $pre.1, $pre.2, $pre.3, X.both w1) ; s3
  | FROM #from_form e #trim => x3.depth 0 ; λ c v. made $pre.1 (X.trim_from $pre.2 $pre.3 X.no_side X.no_character w1 s3.spelled v)
  | e trim_tail => (_, _, $pre.1, $pre.2, $pre.3, s1) ; s2
rule trim_side : takes at : ℕ, f : TrimForm ; with_place at (with_form f q) ; (a b : List Token) × (at ≡ start_of from) × T.Word text class.TRIM from a × T.Word text class.left_parenthesis a b × X.SpellsSide text f b rest ; y : Built ; with_e y q ; (c : List Token) → T.Word text class.right_parenthesis r c → IsBuilt text X.primary y from c
  | FROM e #trim => x2.depth 0 ; λ c v. made $pre.2 (X.trim_from $pre.3 $pre.4 $pre.5 X.no_character w1 s2.spelled v)
  | e FROM e #trim_character => x1.depth x3.depth ; λ c v. made $pre.2 (X.trim_from $pre.3 $pre.4 $pre.5 (X.character s1.spelled) w2 s3.spelled v)
rule trim_tail : takes at : ℕ, x : Built ; with_place at (with_e x q) ; (a b : List Token) × (at ≡ start_of from) × T.Word text class.TRIM from a × T.Word text class.left_parenthesis a b × IsBuilt text X.disjunction x b rest ; y : Built ; with_e y q ; (c : List Token) → T.Word text class.right_parenthesis r c → IsBuilt text X.primary y from c
  | FROM #from_form e #trim_character => $x.depth x3.depth ; λ c v. made $pre.2 (X.trim_from $pre.3 $pre.4 X.no_side (X.character $pre.5.spelled) w1 s3.spelled v)
  | #bare #trim => $x.depth 0 ; λ c v. made $pre.2 (X.trim $pre.3 $pre.4 $pre.5.spelled v)
rule field : puts f : DateField ; with_field f p ; (k : ℕ) × X.Fields f k × T.Word text k rest r
  | YEAR #year => (_, X.year, w1)
  | MONTH #month => (_, X.month, w1)
  | DAY #day => (_, X.day, w1)
  | HOUR #hour => (_, X.hour, w1)
  | MINUTE #minute => (_, X.minute, w1)
  | SECOND #second => (_, X.second, w1)
rule count : takes at : ℕ ; with_place at q ; (a : List Token) × (at ≡ start_of from) × T.Word text class.COUNT from a × T.Word text class.left_parenthesis a rest ; b : Built ; with_e b q ; IsBuilt text X.primary b from r
  | * ) #count_rows => made $pre.1 (X.count_rows $pre.2 $pre.3 w1 w2)
  | counted ) #count => y1.depth 0 ; made $pre.1 (X.aggregate X.count $pre.2 $pre.3 s1.1 s1.2.spelled w2)
rule counted : puts f : Bool, b : Built ; with_flag f (with_e b p) ; (a : List Token) × T.Flag text class.DISTINCT f rest a × IsBuilt text X.disjunction b a r
  | DISTINCT #yes e => (_, T.yes w1, s3)
  | #no e => (_, T.no, s2)
