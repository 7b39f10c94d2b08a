# The grammar of the statements, as the recogniser works it: one token ahead, a stack of symbols, and one small state.
# `make_table.py` makes the table, the classes of tokens and what the table's test needs of it.
#
# A rule is its name, a colon, and its productions with `|` between them. In a production stand:
#
#   name       (small letters, and a rule has this name)  what that rule derives
#   WORD, ( ,  a token of this class
#   <a..b>     a token of a class from a to b; its class is the state from here on
#   <=a..b>    a token of class a, or of one behind a up to b that is not above the state
#   !a, !a..b, !a..  a token of this class, of one from a to b, or of a or one behind it, which stands here and isn't offered; first in a
#              production
#   ?name      what the rule `name`, or the first or the second behind it, derives, as the state is 0, 1 or 2
#   @k         no token; the state is k from here on
#   #mark      no token; a step that builds the tree, listed at `marks` with its name in the code
#
# The classes of tokens stand at `classes`, in the order of their numbers, from 1. Rules, productions and steps have those of
# `numbers.txt`, which the programs keep: what is new is put at its end, so that no number changes.
#
# ---------------------------------------------------------------------------------------------------------------------
# The steps. Each takes parts from the tops of stacks and puts one on a stack; each kind of part has a stack of its own, and
# of parts of one kind the last one written is the topmost. "The token" is the last one that was taken before the step.
# What each does is defined in `crates/hs_builder/specs`, and its name there stands at `marks`.
#
# Words, names, numbers, texts, literals, types
#   #at                 -> place               the place of the token
#   #here               -> place               the place of the next one
#   #name               -> name                the token is a word that is no reserved one, or a quoted name
#   #first_name         name -> names          a list of one
#   #next_name          names, name -> names
#   #alias              name -> alias
#   #no_alias           -> alias
#   #yes #no            -> flag                DISTINCT, and NOT before a predicate
#   #number             -> number              the token is a number
#   #text               -> text                the token is a text
#   #number_literal     number -> literal
#   #text_literal       text -> literal
#   #true #false #null  -> literal             the token is this word
#   #date #timestamp    place, text -> literal
#   #plus_number #minus_number  place, number -> literal
#   #smallint #integer #bigint #boolean #date_type #timestamp_type #decimal_default  -> type
#   #decimal            number -> type         the precision
#   #decimal_scale      number number -> type  the precision and the scale
#   #varchar            number -> type
# Operators, predicates, subqueries. An expression is kept with the place where it begins, parentheses included
#   #literal            literal -> e
#   #column             name -> e
#   #qualified          name name -> e         table and column
#   #bracket            place, e -> e          an expression in parentheses
#   #plus #minus #not   place, e -> e
#   #or #and #equal #not_equal #less #less_or_equal #greater #greater_or_equal
#   #add #subtract #concatenate #multiply #divide  e e -> e
#   #is_null #is_not_null  e -> e
#   #between            e e e, flag -> e       operand, low, high
#   #like               e e, flag -> e         operand, pattern
#   #like_escape        e e, flag, text -> e
#   #in_list            e, flag, es -> e
#   #in_query           e, flag, query -> e
#   #exists             place, query -> e
#   #subquery           place, query -> e      at the place of its parenthesis
#   #body_subquery      place, body -> e       at the innermost parenthesis that holds all of it
#   #digits             text -> count          a text of 1 to 18 digits
#   #plus_days #plus_months #minus_days #minus_months  e, count -> e
#   #first              e -> es                a list of one
#   #next               es, e -> es
#   #written            e -> optional          what may be left out stands there
#   #unwritten          -> optional            it doesn't
# What begins with a word of its own
#   #cast               place, e, type -> e
#   #case               -> case                the token is CASE
#   #arm                case, e e -> case
#   #end                case, optional -> e    the value of ELSE
#   #coalesce #nullif #abs #mod #upper #lower #char_length  place, es -> e
#   #substring          place, e e -> e
#   #substring_for      place, e e e -> e
#   #bare #from_form #leading #trailing #both  -> form
#   #trim               place, form, e -> e
#   #trim_character     place, form, e e -> e  character, text
#   #year #month #day #hour #minute #second  -> field
#   #extract            place, field, e -> e
#   #count_rows         place -> e
#   #count #sum #avg #min #max  place, flag, e -> e
# Queries
#   #select             place, flag -> select
#   #every              select -> select       the token is the `*`
#   #item               select, e, alias -> select
#   #table              name, alias -> table
#   #derived            query, name -> table
#   #from               table -> from
#   #inner_join #left_join  from, table, e -> from
#   #cross_join         from, table -> from
#   #add_from           select, from -> select
#   #group              select, e -> select
#   #select_body        select, optional optional -> body  the conditions of WHERE and of HAVING
#   #values             -> rows                the token is VALUES
#   #row                rows, es -> rows
#   #values_body        rows -> body
#   #bracket_body       place, body -> body    a body in parentheses
#   #union #union_all #except #intersect  body body -> body
#   #query              body -> query
#   #ascending #descending  query, e -> query
#   #limit #offset      query, number -> query
# Statements that read or change rows, and locks
#   #query_statement    query -> statement
#   #insert             name -> target
#   #insert_columns     target, place, names -> target    the place is that of the parenthesis
#   #tuples             -> tuples              the token is VALUES
#   #tuple              -> tuple
#   #tuple_value        tuple, e -> tuple
#   #tuple_default      tuple -> tuple         the token is DEFAULT
#   #add_tuple          tuples, tuple -> tuples
#   #tuples_body        tuples -> body         no value is DEFAULT
#   #insert_tuples      target, tuples -> statement
#   #insert_query       target, query -> statement
#   #update             name, alias -> update
#   #assign             update, name, e -> update
#   #assign_default     update, name -> update the token is DEFAULT
#   #update_statement   update, optional -> statement
#   #delete             name, alias -> delete
#   #delete_statement   delete, optional -> statement
#   #lock               -> locks
#   #lock_read #lock_write  locks, name -> locks
#   #lock_statement     locks -> statement
# Definitions
#   #memory             name -> table definition
#   #column_element     table definition, column -> table definition
#   #constraint_element table definition, constraint -> table definition
#   #create_statement   table definition -> statement
#   #create_index       name name, names -> statement
#   #define             name, type -> column
#   #default            column, literal -> column
#   #named              place, name -> header
#   #unnamed            place -> header
#   #not_null #column_primary #column_unique  column, header -> column
#   #column_check       column, header, e -> column
#   #column_references  column, header, key -> column
#   #references         name -> key            with NO ACTION
#   #parent_columns     key, names -> key
#   #no_action #restrict #cascade #set_null #set_default  -> action
#   #on_delete #on_update  key, action -> key
#   #table_primary #table_unique  header, names -> constraint
#   #table_check        header, e -> constraint
#   #table_foreign      header, names, key -> constraint
#   #add_column         name, column -> statement
#   #add_constraint     name, constraint -> statement
#   #drop_constraint    name name -> statement
#   #drop_table #drop_index  name -> statement
# Sessions and transactions
#   #modes              -> modes               none written
#   #read_committed #repeatable_read #serializable #read_only #read_write  modes -> modes
#   #start_transaction #set_transaction #set_characteristics  modes -> statement
#   #commit #rollback #autocommit_true #autocommit_false #write_delay_false
#   #control_locks #control_mvlocks #control_mvcc #default_read_committed #default_serializable  -> statement
#   #savepoint #rollback_to #release_savepoint  name -> statement
# ---------------------------------------------------------------------------------------------------------------------

classes
  # whole numbers by their value: 0 to 38, up to 4,000, and above; a number with a point
  0 1 2 3 4 5 6 7 8 9 10 11 12 13 14 15 16 17 18 19 20 21 22 23 24 25 26 27 28 29 30 31 32 33 34 35 36 37 38 4000 above
  fraction
  # texts, of which those of 1 to 18 digits are a class of their own; a word that isn't listed here, or a quoted name
  digit_text other_text identifier
  # the one that may stand behind WRITE DELAY, where those before it and those behind it are refused
  FALSE
  # symbols
  ( ) , . * + - / = <> != < <= > >= || ;
  # words that may be names; NUMBER and TYPE, which no rule has, are names like any other
  ACTION AUTOCOMMIT CACHED CHARACTERISTICS CHECKPOINT COMMITTED CONTROL DATABASE DELAY FILES ISOLATION KEY LEVEL LOCKS
  MEMORY MVCC MVLOCKS REPEATABLE SERIALIZABLE SESSION SHUTDOWN TRANSACTION WORK WRITE
  # reserved words
  ABS ADD ALL ALTER AND AS ASC AVG BETWEEN BIGINT BOOLEAN BOTH BY CASCADE CASE CAST CHAR_LENGTH CHECK COALESCE COLUMN
  COMMIT CONSTRAINT COUNT CREATE CROSS DATE DAY DECIMAL DEFAULT DELETE DESC DISTINCT DROP ELSE END ESCAPE EXCEPT
  EXISTS EXTRACT FOR FOREIGN FROM GROUP HAVING HOUR IN INDEX INNER INSERT INT INTEGER INTERSECT INTERVAL INTO IS JOIN
  LEADING LEFT LIKE LIMIT LOCK LOWER MAX MIN MINUTE MOD MONTH NO NOT NULL NULLIF NUMERIC OFFSET ON ONLY OR ORDER OUTER
  PRIMARY READ REFERENCES RELEASE RESTRICT ROLLBACK SAVEPOINT SECOND SELECT SET SMALLINT START SUBSTRING SUM TABLE
  THEN TIMESTAMP TO TRAILING TRIM TRUE UNION UNIQUE UPDATE UPPER VALUES VARCHAR WHEN WHERE YEAR
  # words that aren't offered
  BLOB CHAR CLOB DOUBLE FLOAT REAL VARBINARY UNCOMMITTED
  # words that came later, in the order in which they came
end

marks
  #at Leaf(LeafMark::Place)
  #here Leaf(LeafMark::Here)
  #name Leaf(LeafMark::Name)
  #first_name Leaf(LeafMark::FirstName)
  #next_name Leaf(LeafMark::NextName)
  #alias Leaf(LeafMark::Alias)
  #no_alias Leaf(LeafMark::NoAlias)
  #yes Leaf(LeafMark::Flag(true))
  #no Leaf(LeafMark::Flag(false))
  #number Leaf(LeafMark::Number)
  #text Leaf(LeafMark::Text)
  #number_literal Leaf(LeafMark::NumberLiteral)
  #text_literal Leaf(LeafMark::TextLiteral)
  #true Leaf(LeafMark::Boolean(true))
  #false Leaf(LeafMark::Boolean(false))
  #null Leaf(LeafMark::Null)
  #date Leaf(LeafMark::Date)
  #timestamp Leaf(LeafMark::Timestamp)
  #plus_number Leaf(LeafMark::SignedLiteral(Sign::Plus))
  #minus_number Leaf(LeafMark::SignedLiteral(Sign::Minus))
  #smallint Leaf(LeafMark::Type(DataType::SmallInt))
  #integer Leaf(LeafMark::Type(DataType::Integer))
  #bigint Leaf(LeafMark::Type(DataType::BigInt))
  #boolean Leaf(LeafMark::Type(DataType::Boolean))
  #date_type Leaf(LeafMark::Type(DataType::Date))
  #timestamp_type Leaf(LeafMark::Type(DataType::Timestamp))
  #decimal_default Leaf(LeafMark::PlainDecimal)
  #decimal Leaf(LeafMark::Decimal)
  #decimal_scale Leaf(LeafMark::DecimalScale)
  #varchar Leaf(LeafMark::Varchar)
  #literal Expression(ExpressionMark::Literal)
  #column Expression(ExpressionMark::Column)
  #qualified Expression(ExpressionMark::Qualified)
  #bracket Expression(ExpressionMark::Bracket)
  #plus Expression(ExpressionMark::Signed(Sign::Plus))
  #minus Expression(ExpressionMark::Signed(Sign::Minus))
  #is_null Expression(ExpressionMark::IsNull(false))
  #is_not_null Expression(ExpressionMark::IsNull(true))
  #between Expression(ExpressionMark::Between)
  #like Expression(ExpressionMark::Like)
  #like_escape Expression(ExpressionMark::LikeEscape)
  #in_list Expression(ExpressionMark::InList)
  #in_query Expression(ExpressionMark::InQuery)
  #exists Expression(ExpressionMark::Exists)
  #subquery Expression(ExpressionMark::Subquery)
  #body_subquery Expression(ExpressionMark::BodySubquery)
  #digits Expression(ExpressionMark::Digits)
  #first Expression(ExpressionMark::First)
  #next Expression(ExpressionMark::Next)
  #written Expression(ExpressionMark::Written)
  #unwritten Expression(ExpressionMark::Unwritten)
  #not Expression(ExpressionMark::Not)
  #or Expression(ExpressionMark::Binary(BinaryOperator::Or))
  #and Expression(ExpressionMark::Binary(BinaryOperator::And))
  #equal Expression(ExpressionMark::Binary(BinaryOperator::Equal))
  #not_equal Expression(ExpressionMark::Binary(BinaryOperator::NotEqual))
  #less Expression(ExpressionMark::Binary(BinaryOperator::Less))
  #less_or_equal Expression(ExpressionMark::Binary(BinaryOperator::LessOrEqual))
  #greater Expression(ExpressionMark::Binary(BinaryOperator::Greater))
  #greater_or_equal Expression(ExpressionMark::Binary(BinaryOperator::GreaterOrEqual))
  #add Expression(ExpressionMark::Binary(BinaryOperator::Add))
  #subtract Expression(ExpressionMark::Binary(BinaryOperator::Subtract))
  #concatenate Expression(ExpressionMark::Binary(BinaryOperator::Concatenate))
  #multiply Expression(ExpressionMark::Binary(BinaryOperator::Multiply))
  #divide Expression(ExpressionMark::Binary(BinaryOperator::Divide))
  #plus_days Expression(ExpressionMark::Interval(Sign::Plus,IntervalUnit::Day))
  #plus_months Expression(ExpressionMark::Interval(Sign::Plus,IntervalUnit::Month))
  #minus_days Expression(ExpressionMark::Interval(Sign::Minus,IntervalUnit::Day))
  #minus_months Expression(ExpressionMark::Interval(Sign::Minus,IntervalUnit::Month))
  #cast Function(FunctionMark::Cast)
  #case Function(FunctionMark::Case)
  #arm Function(FunctionMark::Arm)
  #end Function(FunctionMark::End)
  #substring Function(FunctionMark::Substring)
  #substring_for Function(FunctionMark::SubstringFor)
  #bare Function(FunctionMark::Form(TrimForm::Bare))
  #from_form Function(FunctionMark::Form(TrimForm::From))
  #leading Function(FunctionMark::Form(TrimForm::Leading))
  #trailing Function(FunctionMark::Form(TrimForm::Trailing))
  #both Function(FunctionMark::Form(TrimForm::Both))
  #trim Function(FunctionMark::Trim)
  #trim_character Function(FunctionMark::TrimCharacter)
  #extract Function(FunctionMark::Extract)
  #count_rows Function(FunctionMark::CountRows)
  #coalesce Function(FunctionMark::Call(Function::Coalesce))
  #nullif Function(FunctionMark::Call(Function::NullIf))
  #abs Function(FunctionMark::Call(Function::Abs))
  #mod Function(FunctionMark::Call(Function::Mod))
  #upper Function(FunctionMark::Call(Function::Upper))
  #lower Function(FunctionMark::Call(Function::Lower))
  #char_length Function(FunctionMark::Call(Function::CharLength))
  #year Function(FunctionMark::Field(DateField::Year))
  #month Function(FunctionMark::Field(DateField::Month))
  #day Function(FunctionMark::Field(DateField::Day))
  #hour Function(FunctionMark::Field(DateField::Hour))
  #minute Function(FunctionMark::Field(DateField::Minute))
  #second Function(FunctionMark::Field(DateField::Second))
  #count Function(FunctionMark::Aggregate(Aggregate::Count))
  #sum Function(FunctionMark::Aggregate(Aggregate::Sum))
  #avg Function(FunctionMark::Aggregate(Aggregate::Avg))
  #min Function(FunctionMark::Aggregate(Aggregate::Min))
  #max Function(FunctionMark::Aggregate(Aggregate::Max))
  #select Query(QueryMark::Select)
  #every Query(QueryMark::Every)
  #item Query(QueryMark::Item)
  #table Query(QueryMark::Table)
  #derived Query(QueryMark::Derived)
  #inner_join Query(QueryMark::Join(false))
  #left_join Query(QueryMark::Join(true))
  #cross_join Query(QueryMark::CrossJoin)
  #add_from Query(QueryMark::AddFrom)
  #group Query(QueryMark::Group)
  #select_body Query(QueryMark::SelectBody)
  #values Query(QueryMark::Values)
  #row Query(QueryMark::Row)
  #values_body Query(QueryMark::ValuesBody)
  #bracket_body Query(QueryMark::BracketBody)
  #union Query(QueryMark::SetOperation(SetOperator::Union))
  #union_all Query(QueryMark::SetOperation(SetOperator::UnionAll))
  #intersect Query(QueryMark::SetOperation(SetOperator::Intersect))
  #query Query(QueryMark::Query)
  #ascending Query(QueryMark::Key(false))
  #descending Query(QueryMark::Key(true))
  #limit Query(QueryMark::Limit)
  #offset Query(QueryMark::Offset)
  #from Query(QueryMark::From)
  #except Query(QueryMark::SetOperation(SetOperator::Except))
  #query_statement Change(ChangeMark::QueryStatement)
  #insert Change(ChangeMark::Insert)
  #insert_columns Change(ChangeMark::InsertColumns)
  #tuples Change(ChangeMark::Tuples)
  #tuple Change(ChangeMark::Tuple)
  #tuple_value Change(ChangeMark::TupleValue)
  #tuple_default Change(ChangeMark::TupleDefault)
  #add_tuple Change(ChangeMark::AddTuple)
  #tuples_body Change(ChangeMark::TuplesBody)
  #insert_tuples Change(ChangeMark::InsertTuples)
  #insert_query Change(ChangeMark::InsertQuery)
  #update Change(ChangeMark::Update)
  #assign Change(ChangeMark::Assign)
  #assign_default Change(ChangeMark::AssignDefault)
  #update_statement Change(ChangeMark::UpdateStatement)
  #delete Change(ChangeMark::Delete)
  #delete_statement Change(ChangeMark::DeleteStatement)
  #lock Change(ChangeMark::Lock)
  #lock_read Change(ChangeMark::Locked(false))
  #lock_write Change(ChangeMark::Locked(true))
  #lock_statement Change(ChangeMark::LockStatement)
  #memory Definition(DefinitionMark::Create(Storage::Memory))
  #column_element Definition(DefinitionMark::ColumnElement)
  #constraint_element Definition(DefinitionMark::ConstraintElement)
  #create_statement Definition(DefinitionMark::CreateStatement)
  #create_index Definition(DefinitionMark::CreateIndex)
  #define Definition(DefinitionMark::Define)
  #default Definition(DefinitionMark::Default)
  #named Definition(DefinitionMark::Named)
  #unnamed Definition(DefinitionMark::Unnamed)
  #not_null Definition(DefinitionMark::NotNull)
  #column_primary Definition(DefinitionMark::ColumnPrimary)
  #column_unique Definition(DefinitionMark::ColumnUnique)
  #column_check Definition(DefinitionMark::ColumnCheck)
  #column_references Definition(DefinitionMark::ColumnReferences)
  #references Definition(DefinitionMark::References)
  #parent_columns Definition(DefinitionMark::ParentColumns)
  #no_action Definition(DefinitionMark::Action(ReferentialAction::NoAction))
  #restrict Definition(DefinitionMark::Action(ReferentialAction::Restrict))
  #cascade Definition(DefinitionMark::Action(ReferentialAction::Cascade))
  #set_null Definition(DefinitionMark::Action(ReferentialAction::SetNull))
  #set_default Definition(DefinitionMark::Action(ReferentialAction::SetDefault))
  #on_delete Definition(DefinitionMark::OnDelete)
  #on_update Definition(DefinitionMark::OnUpdate)
  #table_primary Definition(DefinitionMark::TablePrimary)
  #table_unique Definition(DefinitionMark::TableUnique)
  #table_check Definition(DefinitionMark::TableCheck)
  #table_foreign Definition(DefinitionMark::TableForeign)
  #add_column Definition(DefinitionMark::AddColumn)
  #add_constraint Definition(DefinitionMark::AddConstraint)
  #drop_constraint Definition(DefinitionMark::DropConstraint)
  #drop_table Definition(DefinitionMark::DropTable)
  #drop_index Definition(DefinitionMark::DropIndex)
  #modes Session(SessionMark::Modes)
  #read_committed Session(SessionMark::Level(Isolation::ReadCommitted))
  #repeatable_read Session(SessionMark::Level(Isolation::RepeatableRead))
  #serializable Session(SessionMark::Level(Isolation::Serializable))
  #read_only Session(SessionMark::Access(Access::ReadOnly))
  #read_write Session(SessionMark::Access(Access::ReadWrite))
  #start_transaction Session(SessionMark::Start)
  #set_transaction Session(SessionMark::SetTransaction)
  #set_characteristics Session(SessionMark::SetCharacteristics)
  #commit Session(SessionMark::Commit)
  #rollback Session(SessionMark::Rollback)
  #autocommit_true Session(SessionMark::Autocommit(true))
  #autocommit_false Session(SessionMark::Autocommit(false))
  #write_delay_false Session(SessionMark::WriteDelayFalse)
  #control_locks Session(SessionMark::Control(TransactionControl::Locks))
  #control_mvlocks Session(SessionMark::Control(TransactionControl::MvLocks))
  #control_mvcc Session(SessionMark::Control(TransactionControl::Mvcc))
  #default_read_committed Session(SessionMark::DefaultLevel(Isolation::ReadCommitted))
  #default_serializable Session(SessionMark::DefaultLevel(Isolation::Serializable))
  #savepoint Session(SessionMark::Savepoint)
  #rollback_to Session(SessionMark::RollbackTo)
  #release_savepoint Session(SessionMark::Release)
end

views
  # a sign before INTERVAL is looked up apart
  + INTERVAL
  - INTERVAL
end

# ---- statements

start : statement semicolon
semicolon : ; |
statement : query #query_statement | insert | update | delete | lock | create | alter | drop | set
  | START TRANSACTION #modes start_modes #start_transaction | COMMIT work #commit | ROLLBACK rollback
  | SAVEPOINT name #savepoint | RELEASE SAVEPOINT name #release_savepoint | !CHECKPOINT | !SHUTDOWN
work : WORK |
rollback : WORK #rollback | TO SAVEPOINT name #rollback_to | #rollback
start_modes : mode modes_more |
modes : #modes mode modes_more
modes_more : , mode modes_more |
mode : ISOLATION LEVEL level | READ access
access : ONLY #read_only | WRITE #read_write
level : READ committed | REPEATABLE READ #repeatable_read | SERIALIZABLE #serializable
committed : COMMITTED #read_committed | !UNCOMMITTED

# ---- names, numbers, texts

name : identifier #name | ACTION #name | AUTOCOMMIT #name | CACHED #name | CHARACTERISTICS #name | CHECKPOINT #name
  | COMMITTED #name | CONTROL #name | DATABASE #name | DELAY #name | FILES #name | ISOLATION #name | KEY #name | LEVEL #name
  | LOCKS #name | MEMORY #name | MVCC #name | MVLOCKS #name | REPEATABLE #name | SERIALIZABLE #name | SESSION #name
  | SHUTDOWN #name | TRANSACTION #name | WORK #name | WRITE #name
names : name #first_name names_more
names_more : , name #next_name names_more |
number : <0..fraction> #number
text : <digit_text..other_text> #text
literal : number #number_literal | text #text_literal | TRUE #true | FALSE #false | NULL #null | DATE #at text #date
  | TIMESTAMP #at text #timestamp

# ---- queries

query : body #query ordering limiting
body : term body_more
body_more : UNION union body_more | EXCEPT term #except body_more |
union : ALL term #union_all | term #union
term : core term_more
term_more : INTERSECT core #intersect term_more |
core : SELECT #at select | VALUES #values rows #values_body | ( #at body ) #bracket_body
select : distinct #select items FROM froms where group having #select_body
distinct : DISTINCT #yes | #no
items : * #every | item items_more
items_more : , item items_more |
item : e alias #item
alias : AS name #alias | name #alias | #no_alias
froms : from froms_more
froms_more : , from froms_more |
from : table #from joins #add_from
joins : INNER JOIN table ON e #inner_join joins | JOIN table ON e #inner_join joins
  | LEFT outer JOIN table ON e #left_join joins | CROSS JOIN table #cross_join joins |
outer : OUTER |
table : name alias #table | ( query ) as name #derived
as : AS |
where : WHERE e #written | #unwritten
group : GROUP BY e #group group_more |
group_more : , e #group group_more |
having : HAVING e #written | #unwritten
es : e #first es_more
es_more : , e #next es_more |
rows : row rows_more
rows_more : , row rows_more |
row : ( es ) #row
ordering : ORDER BY keys |
keys : key keys_more
keys_more : , key keys_more |
key : e direction
direction : ASC #ascending | DESC #descending | #ascending
limiting : LIMIT limit |
limit : <1..above> #number #limit offset
offset : OFFSET <0..above> #number #offset |

# ---- changes. In INSERT, VALUES begins tuples; without DEFAULT so far they may also turn out to begin a query.

insert : INSERT INTO name #insert source
source : ( #at columns | values_or_select
columns : names ) #insert_columns values_or_query | body ) #bracket_body query_tail #insert_query
values_or_query : values_or_select | ( #at body ) #bracket_body query_tail #insert_query
values_or_select : VALUES #tuples plain_tuple | SELECT #at select query_tail #insert_query
query_tail : term_more body_more #query ordering limiting
plain_tuple : ( #tuple plain_value
plain_value : e #tuple_value plain_more | DEFAULT #tuple_default mixed_more
plain_more : , plain_value | ) #add_tuple plain_tuples
plain_tuples : , plain_tuple | #tuples_body INTERSECT core #intersect query_tail #insert_query
  | #tuples_body UNION union body_more #query ordering limiting #insert_query
  | #tuples_body EXCEPT term #except body_more #query ordering limiting #insert_query
  | #tuples_body #query ORDER BY keys limiting #insert_query | #tuples_body #query LIMIT limit #insert_query
  | #insert_tuples
mixed_more : , mixed_value mixed_more | ) #add_tuple mixed_tuples
mixed_value : e #tuple_value | DEFAULT #tuple_default
mixed_tuples : , ( #tuple mixed_value mixed_more | #insert_tuples
update : UPDATE name alias #update SET pair pairs_more update_where #update_statement
update_where : WHERE e #written | #unwritten
pairs_more : , pair pairs_more |
pair : name = value
value : e #assign | DEFAULT #assign_default
delete : DELETE FROM name alias #delete delete_where #delete_statement
delete_where : WHERE e #written | #unwritten
lock : LOCK TABLE #lock claim claims_more #lock_statement
claims_more : , claim claims_more |
claim : name claimed
claimed : READ #lock_read | WRITE #lock_write

# ---- definitions

create : CREATE created
created : MEMORY TABLE name #memory elements | TABLE name #memory elements | !CACHED
  | INDEX name ON name ( names ) #create_index
elements : ( element elements_more ) #create_statement
elements_more : , element elements_more |
element : column #column_element | table_constraint #constraint_element
column : name type #define default column_constraints
default : DEFAULT signed_literal #default |
signed_literal : literal | + #at number #plus_number | - #at number #minus_number
column_constraints : CONSTRAINT #at name #named column_rule column_constraints | #here #unnamed column_rule column_constraints |
column_rule : NOT NULL #not_null | PRIMARY KEY #column_primary | UNIQUE #column_unique
  | CHECK ( e ) #column_check | REFERENCES name #references referenced_name actions #column_references
referenced_name : ( name #first_name ) #parent_columns |
referenced_names : ( names ) #parent_columns |
actions : ON acting actions |
acting : DELETE action #on_delete | UPDATE action #on_update
action : CASCADE #cascade | SET set_to | RESTRICT #restrict | NO ACTION #no_action
set_to : NULL #set_null | DEFAULT #set_default
table_constraint : CONSTRAINT #at name #named table_rule | #here #unnamed table_rule
table_rule : PRIMARY KEY ( names ) #table_primary | UNIQUE ( names ) #table_unique | CHECK ( e ) #table_check
  | FOREIGN KEY ( names ) REFERENCES name #references referenced_names actions #table_foreign
type : SMALLINT #smallint | INTEGER #integer | INT #integer | BIGINT #bigint | DECIMAL decimal | NUMERIC decimal
  | VARCHAR ( <1..4000> #number ) #varchar | BOOLEAN #boolean | DATE #date_type | TIMESTAMP #timestamp_type
  | !BLOB..VARBINARY
decimal : ( <1..38> #number scale ) | #decimal_default
scale : , <=0..38> #number #decimal_scale | #decimal
alter : ALTER TABLE name altered
altered : ADD added | DROP CONSTRAINT name #drop_constraint
added : COLUMN column #add_column | table_constraint #add_constraint
drop : DROP dropped
dropped : TABLE name #drop_table | INDEX name #drop_index

# ---- settings

set : SET setting
setting : DATABASE database_setting | AUTOCOMMIT truth | TRANSACTION modes #set_transaction
  | SESSION CHARACTERISTICS AS TRANSACTION modes #set_characteristics | FILES WRITE DELAY write_delay
database_setting : TRANSACTION CONTROL control | DEFAULT ISOLATION LEVEL default_level
control : LOCKS #control_locks | MVLOCKS #control_mvlocks | MVCC #control_mvcc
default_level : READ default_committed | SERIALIZABLE #default_serializable
default_committed : COMMITTED #default_read_committed | !UNCOMMITTED
truth : TRUE #autocommit_true | FALSE #autocommit_false
write_delay : FALSE #write_delay_false | !0..identifier | !(..

# ---- expressions

e : conjunction or_more
or_more : OR conjunction #or or_more |
conjunction : negation and_more
and_more : AND negation #and and_more |
negation : NOT #at negation #not | EXISTS #at ( query ) #exists | sum compared
compared : comparison |
comparison : = sum #equal | <> sum #not_equal | != sum #not_equal | < sum #less | <= sum #less_or_equal
  | > sum #greater | >= sum #greater_or_equal | IS is | NOT #yes negated | #no negated
is : NULL #is_null | NOT NULL #is_not_null
negated : BETWEEN sum AND sum #between | IN ( in | LIKE sum escape
escape : ESCAPE text #like_escape | #like
sum : product sum_more
sum_more : addition sum_more |
addition : + product #add | - product #subtract | || product #concatenate
product : unary product_more
product_more : multiplication product_more |
multiplication : * unary #multiply | / unary #divide
unary : sign | primary
sign : - #at primary #minus | + #at primary #plus
primary : simple intervals | ( #at inner ) ?close0 intervals
intervals : interval intervals |
interval : + INTERVAL digit_text #text #digits plus_unit | - INTERVAL digit_text #text #digits minus_unit
plus_unit : DAY #plus_days | MONTH #plus_months
minus_unit : DAY #minus_days | MONTH #minus_months
simple : literal #literal | name qualified | CAST #at ( e AS type ) #cast | CASE #case arms else END #end
  | COALESCE #at ( es ) #coalesce | NULLIF #at ( es ) #nullif | ABS #at ( es ) #abs | MOD #at ( es ) #mod
  | UPPER #at ( es ) #upper | LOWER #at ( es ) #lower | CHAR_LENGTH #at ( es ) #char_length
  | SUBSTRING #at ( e FROM e for | TRIM #at ( trim ) | EXTRACT #at ( field FROM e ) #extract
  | COUNT #at ( count | SUM #at ( counted ) #sum | AVG #at ( counted ) #avg | MIN #at ( counted ) #min
  | MAX #at ( counted ) #max
qualified : . name #qualified | #column
arms : WHEN e THEN e #arm arms |
else : ELSE e #written | #unwritten
for : FOR e ) #substring_for | ) #substring
trim : LEADING #leading trim_side | TRAILING #trailing trim_side | BOTH #both trim_side | FROM #from_form e #trim
  | e trim_tail
trim_side : FROM e #trim | e FROM e #trim_character
trim_tail : FROM #from_form e #trim_character | #bare #trim
field : YEAR #year | MONTH #month | DAY #day | HOUR #hour | MINUTE #minute | SECOND #second
count : * ) #count_rows | counted ) #count
counted : DISTINCT #yes e | #no e

# ---- What stands in the parentheses of an expression: an expression (state 0), a body (1), or a query that is no body (2).
# A body in further parentheses is a body still, and what comes behind decides.

close0 : #bracket
close1 : #body_subquery
close2 : #subquery
inner : NOT #at negation #not and_more or_more @0 | EXISTS #at ( query ) #exists and_more or_more @0 | sign primary_tail @0
  | simple intervals primary_tail @0 | SELECT #at select term_more body_more inner_tail
  | VALUES #values rows #values_body term_more body_more inner_tail | ( #at inner ) ?first0
primary_tail : product_more sum_more compared and_more or_more
inner_tail : #query ORDER BY keys limiting @2 | #query LIMIT limit @2 | @1
first0 : #bracket intervals primary_tail @0
first1 : #body_subquery operation @0 | #bracket_body combination inner_tail
  | #bracket_body #query ORDER BY keys limiting @2 | #bracket_body #query LIMIT limit @2 | #bracket_body @1
first2 : #subquery intervals primary_tail @0
operation : interval intervals primary_tail | multiplication primary_tail | addition sum_more compared and_more or_more
  | comparison and_more or_more | AND negation #and and_more or_more | OR conjunction #or or_more
combination : INTERSECT core #intersect term_more body_more | UNION union body_more | EXCEPT term #except body_more

# ---- What stands in the parentheses of IN: a query, or expressions.

in : SELECT #at select query_tail ) #in_query | VALUES #values rows #values_body query_tail ) #in_query | ( #at inner ) ?in_first0
  | in_e in_list
in_e : NOT #at negation #not and_more or_more | EXISTS #at ( query ) #exists and_more or_more | sign primary_tail
  | simple intervals primary_tail
in_list : #first es_more ) #in_list
in_first0 : #bracket intervals primary_tail in_list
in_first1 : #body_subquery operation in_list | #bracket_body combination #query ordering limiting ) #in_query
  | #bracket_body #query ORDER BY keys limiting ) #in_query | #bracket_body #query LIMIT limit ) #in_query
  | #bracket_body #query ) #in_query | #body_subquery #first , e #next es_more ) #in_list
in_first2 : #subquery intervals primary_tail in_list
