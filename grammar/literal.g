# The grammar of the statements as one reads it, with the steps that build their trees. `make_literal.py` makes
# crates/hs_syntax/specs/Literal.antt of it, and `literal.ebnf` of the lines that begin with `##`. These say the same as the rules
# below them, by tokens alone: `[ ]` may be left out, `{ }` may be repeated or left out, `|` parts alternatives, `( )` groups,
# a symbol stands in quotes, and w(a..b) is a whole number from a to b. What is in brackets has rules of its own here, each behind
# the rule that it stands in. The other forms are as in `sql.g`, which lists the steps; <a..b> is a token of a class from a to b,
# <p,s> are three, a precision, a comma and a scale that is not above it, the two read as numbers, and !a, !a..b or !a.. is a
# token that stands there but isn't offered. Lines that begin with `#-` are remarks for the reader of Literal.antt.

## start = statement [ ';' ]
start : statement semicolon
semicolon : ; |
## statement = query | insert | update | delete | lock | create | alter | drop | set
##   | START TRANSACTION [ modes ] | COMMIT [ WORK ] | ROLLBACK [ WORK ] | SAVEPOINT name | ROLLBACK TO SAVEPOINT name
##   | RELEASE SAVEPOINT name
statement : query #query_statement | insert | update | delete | lock | create | alter | drop | set
  | START TRANSACTION #modes start_modes #start_transaction | COMMIT work #commit | ROLLBACK rollback
  | SAVEPOINT name #savepoint | RELEASE SAVEPOINT name #release_savepoint | !CHECKPOINT | !SHUTDOWN
work : WORK |
rollback : WORK #rollback | TO SAVEPOINT name #rollback_to | #rollback
start_modes : mode modes_more |
## modes = mode { ',' mode }
modes : #modes mode modes_more
modes_more : , mode modes_more |
## mode = ISOLATION LEVEL ( READ COMMITTED | REPEATABLE READ | SERIALIZABLE ) | READ ONLY | READ WRITE
mode : ISOLATION LEVEL level | READ access
access : ONLY #read_only | WRITE #read_write
level : READ committed | REPEATABLE READ #repeatable_read | SERIALIZABLE #serializable
committed : COMMITTED #read_committed | !UNCOMMITTED

## name = identifier | ACTION | AUTOCOMMIT | CACHED | CHARACTERISTICS | CHECKPOINT | COMMITTED | CONTROL | DATABASE | DELAY
##   | FILES | ISOLATION | KEY | LEVEL | LOCKS | MEMORY | MVCC | MVLOCKS | REPEATABLE | SERIALIZABLE | SESSION | SHUTDOWN
##   | TRANSACTION | WORK | WRITE
name : identifier #name | ACTION #name | AUTOCOMMIT #name | CACHED #name | CHARACTERISTICS #name | CHECKPOINT #name
  | COMMITTED #name | CONTROL #name | DATABASE #name | DELAY #name | FILES #name | ISOLATION #name | KEY #name | LEVEL #name
  | LOCKS #name | MEMORY #name | MVCC #name | MVLOCKS #name | REPEATABLE #name | SERIALIZABLE #name | SESSION #name
  | SHUTDOWN #name | TRANSACTION #name | WORK #name | WRITE #name
## names = name { ',' name }
names : name #first_name names_more
names_more : , name #next_name names_more |
## number = w(0..above) | fraction
number : <0..fraction> #number
## text = digit_text | other_text
text : <digit_text..other_text> #text
## literal = number | text | TRUE | FALSE | NULL | ( DATE | TIMESTAMP ) text
literal : number #number_literal | text #text_literal | TRUE #true | FALSE #false | NULL #null | DATE #at text #date
  | TIMESTAMP #at text #timestamp

## query = body [ ORDER BY key { ',' key } ] [ LIMIT w(1..above) [ OFFSET w(0..above) ] ]
query : body #query ordering limiting
ordering : ORDER BY keys |
keys : key keys_more
keys_more : , key keys_more |
limiting : LIMIT limit |
limit : <1..above> #number #limit offset
offset : OFFSET <0..above> #number #offset |
## body = term { ( UNION [ ALL ] | EXCEPT ) term }
body : term body_more
body_more : UNION union body_more | EXCEPT term #except body_more |
union : ALL term #union_all | term #union
## term = core { INTERSECT core }
term : core term_more
term_more : INTERSECT core #intersect term_more |
## core = SELECT [ DISTINCT ] ( '*' | item { ',' item } ) FROM from { ',' from }
##     [ WHERE e ] [ GROUP BY e { ',' e } ] [ HAVING e ]
##   | VALUES '(' e { ',' e } ')' { ',' '(' e { ',' e } ')' } | '(' body ')'
core : SELECT #at select | VALUES #values rows #values_body | ( #at body ) #bracket_body
select : distinct #select items FROM froms where group having #select_body
distinct : DISTINCT #yes | #no
items : * #every | item items_more
items_more : , item items_more |
froms : from froms_more
froms_more : , from froms_more |
where : WHERE e #written | #unwritten
group : GROUP BY e #group group_more |
group_more : , e #group group_more |
having : HAVING e #written | #unwritten
es : e #first es_more
es_more : , e #next es_more |
rows : row rows_more
rows_more : , row rows_more |
row : ( es ) #row
## item = e [ [ AS ] name ]
item : e alias #item
alias : AS name #alias | name #alias | #no_alias
## from = one { [ INNER ] JOIN one ON e | LEFT [ OUTER ] JOIN one ON e | CROSS JOIN one }
from : table #from joins #add_from
joins : INNER JOIN table ON e #inner_join joins | JOIN table ON e #inner_join joins
  | LEFT outer JOIN table ON e #left_join joins | CROSS JOIN table #cross_join joins |
outer : OUTER |
## one = name [ [ AS ] name ] | '(' query ')' [ AS ] name
table : name alias #table | ( query ) as name #derived
as : AS |
## key = e [ ASC | DESC ]
key : e direction
direction : ASC #ascending | DESC #descending | #ascending

## insert = INSERT INTO name [ '(' name { ',' name } ')' ] ( VALUES tuple { ',' tuple } | query )
#- Where VALUES and rows alone could be either, they are tuples: a query that begins with VALUES has something behind its rows.
insert : INSERT INTO name #insert source
source : ( #at names ) #insert_columns contents | contents
contents : VALUES #tuples tuples #insert_tuples | inserted_query #insert_query
tuples : tuple tuples_more
tuples_more : , tuple tuples_more |
## tuple = '(' value { ',' value } ')'
## value = e | DEFAULT
tuple : ( #tuple tuple_value values_more ) #add_tuple
values_more : , tuple_value values_more |
tuple_value : e #tuple_value | DEFAULT #tuple_default
#- The query is SELECT .., or ( body ) .., or VALUES, rows without DEFAULT, and what makes a query of them: a set operator, ORDER BY or LIMIT.
inserted_query : SELECT #at select query_tail | ( #at body ) #bracket_body query_tail | VALUES #tuples rows_of_values #tuples_body behind_rows
query_tail : term_more body_more #query ordering limiting
rows_of_values : row_of_values rows_of_values_more
rows_of_values_more : , row_of_values rows_of_values_more |
row_of_values : ( #tuple e #tuple_value row_of_values_more ) #add_tuple
row_of_values_more : , e #tuple_value row_of_values_more |
behind_rows : INTERSECT core #intersect query_tail | UNION union body_more #query ordering limiting
  | EXCEPT term #except body_more #query ordering limiting | #query ordered
## update = UPDATE name [ [ AS ] name ] SET name '=' value { ',' name '=' value } [ WHERE e ]
update : UPDATE name alias #update SET pair pairs_more update_where #update_statement
pairs_more : , pair pairs_more |
pair : name = value
value : e #assign | DEFAULT #assign_default
update_where : WHERE e #written | #unwritten
## delete = DELETE FROM name [ [ AS ] name ] [ WHERE e ]
delete : DELETE FROM name alias #delete delete_where #delete_statement
delete_where : WHERE e #written | #unwritten
## lock = LOCK TABLE name ( READ | WRITE ) { ',' name ( READ | WRITE ) }
lock : LOCK TABLE #lock claim claims_more #lock_statement
claims_more : , claim claims_more |
claim : name claimed
claimed : READ #lock_read | WRITE #lock_write

## create = CREATE [ MEMORY ] TABLE name '(' element { ',' element } ')' | CREATE INDEX name ON name '(' name { ',' name } ')'
create : CREATE created
created : MEMORY TABLE table_definition | TABLE table_definition | INDEX name ON name ( names ) #create_index | !CACHED
table_definition : name #memory ( element elements_more ) #create_statement
elements_more : , element elements_more |
## element = column | table_constraint
element : column #column_element | table_constraint #constraint_element
## column = name type [ DEFAULT signed ] { [ CONSTRAINT name ] ( NOT NULL | PRIMARY KEY | UNIQUE | CHECK '(' e ')'
##   | REFERENCES name [ '(' name ')' ] actions ) }
column : name type #define default column_constraints
default : DEFAULT signed_literal #default |
## signed = literal | ( '+' | '-' ) number
signed_literal : literal | + #at number #plus_number | - #at number #minus_number
column_constraints : CONSTRAINT #at name #named column_rule column_constraints | #here #unnamed column_rule column_constraints |
column_rule : NOT NULL #not_null | PRIMARY KEY #column_primary | UNIQUE #column_unique
  | CHECK ( e ) #column_check | REFERENCES name #references referenced_name actions #column_references
referenced_name : ( name #first_name ) #parent_columns |
## table_constraint = [ CONSTRAINT name ] ( PRIMARY KEY '(' names ')' | UNIQUE '(' names ')' | CHECK '(' e ')'
##   | FOREIGN KEY '(' names ')' REFERENCES name [ '(' names ')' ] actions )
table_constraint : CONSTRAINT #at name #named table_rule | #here #unnamed table_rule
table_rule : PRIMARY KEY ( names ) #table_primary | UNIQUE ( names ) #table_unique | CHECK ( e ) #table_check
  | FOREIGN KEY ( names ) REFERENCES name #references referenced_names actions #table_foreign
referenced_names : ( names ) #parent_columns |
## actions = { ON ( DELETE | UPDATE ) ( CASCADE | SET NULL | SET DEFAULT | RESTRICT | NO ACTION ) }
actions : ON acting actions |
acting : DELETE action #on_delete | UPDATE action #on_update
action : CASCADE #cascade | SET set_to | RESTRICT #restrict | NO ACTION #no_action
set_to : NULL #set_null | DEFAULT #set_default
## type = SMALLINT | INTEGER | INT | BIGINT | ( DECIMAL | NUMERIC ) [ '(' w(1..38) [ ',' w(0..38) ] ')' ]
##   | VARCHAR '(' w(1..4000) ')' | BOOLEAN | DATE | TIMESTAMP
#- A scale, the second number of DECIMAL, is at most its precision, the first.
type : SMALLINT #smallint | INTEGER #integer | INT #integer | BIGINT #bigint | DECIMAL decimal | NUMERIC decimal
  | VARCHAR ( <1..4000> #number ) #varchar | BOOLEAN #boolean | DATE #date_type | TIMESTAMP #timestamp_type
  | !BLOB..VARBINARY
decimal : ( <1..38> #number #decimal ) | ( <p,s> #decimal_scale ) | #decimal_default
## alter = ALTER TABLE name ( ADD COLUMN column | ADD table_constraint | DROP CONSTRAINT name )
alter : ALTER TABLE name altered
altered : ADD added | DROP CONSTRAINT name #drop_constraint
added : COLUMN column #add_column | table_constraint #add_constraint
## drop = DROP TABLE name | DROP INDEX name
drop : DROP dropped
dropped : TABLE name #drop_table | INDEX name #drop_index
## set = SET DATABASE TRANSACTION CONTROL ( LOCKS | MVLOCKS | MVCC )
##   | SET DATABASE DEFAULT ISOLATION LEVEL ( READ COMMITTED | SERIALIZABLE )
##   | SET AUTOCOMMIT ( TRUE | FALSE ) | SET TRANSACTION modes | SET SESSION CHARACTERISTICS AS TRANSACTION modes
##   | SET FILES WRITE DELAY FALSE
set : SET setting
setting : DATABASE database_setting | AUTOCOMMIT truth | TRANSACTION modes #set_transaction
  | SESSION CHARACTERISTICS AS TRANSACTION modes #set_characteristics | FILES WRITE DELAY write_delay
database_setting : TRANSACTION CONTROL control | DEFAULT ISOLATION LEVEL default_level
control : LOCKS #control_locks | MVLOCKS #control_mvlocks | MVCC #control_mvcc
default_level : READ default_committed | SERIALIZABLE #default_serializable
default_committed : COMMITTED #default_read_committed | !UNCOMMITTED
truth : TRUE #autocommit_true | FALSE #autocommit_false
write_delay : FALSE #write_delay_false | !0..identifier | !(..

## e = conjunction { OR conjunction }
e : conjunction or_more
or_more : OR conjunction #or or_more |
## conjunction = negation { AND negation }
conjunction : negation and_more
and_more : AND negation #and and_more |
## negation = NOT negation | predicate
negation : NOT #at negation #not | EXISTS #at ( query ) #exists | sum compared
## predicate = sum [ ( '=' | '<>' | '!=' | '<' | '<=' | '>' | '>=' ) sum | IS [ NOT ] NULL | [ NOT ] BETWEEN sum AND sum
##   | [ NOT ] IN '(' ( query | e { ',' e } ) ')' | [ NOT ] LIKE sum [ ESCAPE text ] ] | EXISTS '(' query ')'
#- Where IN ( .. ) could be both, as IN ( ( SELECT .. ) ) is, it is meant as the query (`MeantAs`).
compared : comparison |
comparison : = sum #equal | <> sum #not_equal | != sum #not_equal | < sum #less | <= sum #less_or_equal
  | > sum #greater | >= sum #greater_or_equal | IS is | NOT #yes negated | #no negated
is : NULL #is_null | NOT NULL #is_not_null
negated : BETWEEN sum AND sum #between | IN ( in | LIKE sum escape
in : query ) #in_query | es ) #in_list
escape : ESCAPE text #like_escape | #like
## sum = product { ( '+' | '-' | '||' ) product }
sum : product sum_more
sum_more : addition sum_more |
addition : + product #add | - product #subtract | || product #concatenate
## product = unary { ( '*' | '/' ) unary }
product : unary product_more
product_more : multiplication product_more |
multiplication : * unary #multiply | / unary #divide
## unary = [ '-' | '+' ] primary
unary : sign | primary
sign : - #at primary #minus | + #at primary #plus
## primary = simple | '(' e ')' | '(' query ')' | primary ( '+' | '-' ) INTERVAL digit_text ( DAY | MONTH )
#- Where ( .. ) could be both ( e ) and ( query ), as ( ( SELECT .. ) ) is, it is meant as the query (`MeantAs`).
primary : simple intervals | ( #at e ) #bracket intervals | ( #at body ) #body_subquery intervals
  | ( #at body #query ordered ) #subquery intervals
ordered : ORDER BY keys limiting | LIMIT limit
intervals : interval intervals |
interval : + INTERVAL digit_text #text #digits plus_unit | - INTERVAL digit_text #text #digits minus_unit
plus_unit : DAY #plus_days | MONTH #plus_months
minus_unit : DAY #minus_days | MONTH #minus_months
## simple = literal | name [ '.' name ] | CAST '(' e AS type ')' | CASE { WHEN e THEN e } [ ELSE e ] END
##   | ( COALESCE | NULLIF | ABS | MOD | UPPER | LOWER | CHAR_LENGTH ) '(' e { ',' e } ')'
##   | SUBSTRING '(' e FROM e [ FOR e ] ')' | TRIM '(' [ [ LEADING | TRAILING | BOTH ] [ e ] FROM ] e ')'
##   | EXTRACT '(' ( YEAR | MONTH | DAY | HOUR | MINUTE | SECOND ) FROM e ')'
##   | COUNT '(' ( '*' | [ DISTINCT ] e ) ')' | ( SUM | AVG | MIN | MAX ) '(' [ DISTINCT ] e ')'
simple : literal #literal | name qualified | CAST #at ( e AS type ) #cast | CASE #case arms else END #end
  | COALESCE #at ( es ) #coalesce | NULLIF #at ( es ) #nullif | ABS #at ( es ) #abs | MOD #at ( es ) #mod
  | UPPER #at ( es ) #upper | LOWER #at ( es ) #lower | CHAR_LENGTH #at ( es ) #char_length
  | SUBSTRING #at ( e FROM e for | TRIM #at ( trim ) | EXTRACT #at ( field FROM e ) #extract
  | COUNT #at ( count | SUM #at ( counted ) #sum | AVG #at ( counted ) #avg | MIN #at ( counted ) #min
  | MAX #at ( counted ) #max
qualified : . name #qualified | #column
arms : WHEN e THEN e #arm arms |
else : ELSE e #written | #unwritten
for : FOR e ) #substring_for | ) #substring
trim : LEADING #leading trim_side | TRAILING #trailing trim_side | BOTH #both trim_side | FROM #from_form e #trim
  | e trim_tail
trim_side : FROM e #trim | e FROM e #trim_character
trim_tail : FROM #from_form e #trim_character | #bare #trim
field : YEAR #year | MONTH #month | DAY #day | HOUR #hour | MINUTE #minute | SECOND #second
count : * ) #count_rows | counted ) #count
counted : DISTINCT #yes e | #no e
