//! The kinds of nodes and tokens, with their numbers.

/// Declares the enum and the list of its values from one table.
macro_rules! kinds {
    ($($name:ident = $number:literal,)*) => {
        /// What a node or a token is: the names of ClickHouse/clickhouse-analyzer's `SyntaxKind`, in its order. A kind's number on the
        /// tape is its place there, from 0: `Kind::File as u16` is 1.
        // The names are the source's.
        #[allow(missing_docs, clippy::enum_variant_names)]
        #[derive(Clone, Copy, Debug, PartialEq, Eq)]
        #[repr(u16)]
        pub enum Kind {
            $($name = $number,)*
        }

        impl Kind {
            /// Every kind, at the place of its number.
            pub const ALL: &'static [Kind] = &[$(Kind::$name,)*];
        }
    };
}

impl Kind {
    /// Whether a node may be of this kind; thirteen are not carried (refusal 9). A token may be of any kind.
    pub fn is_carried(self) -> bool {
        !matches!(
            self,
            Kind::InsertStatement
                | Kind::InsertValuesClause
                | Kind::CreateStatement
                | Kind::TableDefinition
                | Kind::DatabaseDefinition
                | Kind::ViewDefinition
                | Kind::MaterializedViewDefinition
                | Kind::DictionaryDefinition
                | Kind::ColumnDefinitionList
                | Kind::EngineClause
                | Kind::AlterStatement
                | Kind::SetStatement
                | Kind::ExplainStatement
        )
    }
}

impl From<Kind> for u16 {
    fn from(kind: Kind) -> u16 {
        kind as u16
    }
}

kinds! {
    // Error recovery
    Error = 0,
    // Root
    File = 1,
    QueryList = 2,
    // Statements
    SelectStatement = 3,
    InsertStatement = 4,
    UpdateStatement = 5,
    DeleteStatement = 6,
    CreateStatement = 7,
    AlterStatement = 8,
    DropStatement = 9,
    TruncateStatement = 10,
    RenameStatement = 11,
    ShowStatement = 12,
    UseStatement = 13,
    SetStatement = 14,
    OptimizeStatement = 15,
    SystemStatement = 16,
    ExplainStatement = 17,
    DescribeStatement = 18,
    ExistsStatement = 19,
    CheckStatement = 20,
    KillStatement = 21,
    GrantStatement = 22,
    RevokeStatement = 23,
    AttachStatement = 24,
    DetachStatement = 25,
    ExchangeStatement = 26,
    UndropStatement = 27,
    BackupStatement = 28,
    RestoreStatement = 29,
    BeginStatement = 30,
    CommitStatement = 31,
    RollbackStatement = 32,
    // SELECT clauses
    WithClause = 33,
    SelectClause = 34,
    FromClause = 35,
    JoinClause = 36,
    ArrayJoinClause = 37,
    PrewhereClause = 38,
    WhereClause = 39,
    GroupByClause = 40,
    HavingClause = 41,
    OrderByClause = 42,
    LimitByClause = 43,
    LimitClause = 44,
    SettingsClause = 45,
    FormatClause = 46,
    UnionClause = 47,
    WindowClause = 48,
    WindowDefinition = 49,
    WindowFrame = 50,
    WindowSpec = 51,
    QualifyClause = 52,
    SampleClause = 53,
    WithFillClause = 54,
    // CREATE TABLE components
    TableDefinition = 55,
    DatabaseDefinition = 56,
    ViewDefinition = 57,
    MaterializedViewDefinition = 58,
    DictionaryDefinition = 59,
    FunctionDefinition = 60,
    EngineClause = 61,
    OrderByDefinition = 62,
    PartitionByDefinition = 63,
    PrimaryKeyDefinition = 64,
    SampleByDefinition = 65,
    TtlDefinition = 66,
    OnClusterClause = 67,
    IfNotExistsClause = 68,
    IfExistsClause = 69,
    AsClause = 70,
    // Dictionary components
    DictionarySource = 71,
    DictionarySourceType = 72,
    DictionaryLayout = 73,
    DictionaryLayoutType = 74,
    DictionaryLifetime = 75,
    DictionaryRange = 76,
    DictionaryKeyValue = 77,
    // Column definitions
    ColumnDefinition = 78,
    ColumnDefinitionList = 79,
    ColumnTypeDefinition = 80,
    ColumnConstraint = 81,
    ColumnDefault = 82,
    ColumnCodec = 83,
    ColumnTtl = 84,
    ColumnComment = 85,
    TableConstraint = 86,
    // Index / Projection / Constraint definitions
    IndexDefinition = 87,
    ProjectionDefinition = 88,
    ConstraintDefinition = 89,
    CreateIndexStatement = 90,
    // Access control statements
    CreateUserStatement = 91,
    CreateRoleStatement = 92,
    CreateQuotaStatement = 93,
    CreateRowPolicyStatement = 94,
    CreateSettingsProfileStatement = 95,
    AlterUserStatement = 96,
    DropAccessEntityStatement = 97,
    // Table components
    TableIdentifier = 98,
    TableExpression = 99,
    TableFunction = 100,
    // ALTER commands
    AlterCommandList = 101,
    AlterAddColumn = 102,
    AlterDropColumn = 103,
    AlterModifyColumn = 104,
    AlterRenameColumn = 105,
    AlterClearColumn = 106,
    AlterCommentColumn = 107,
    AlterAddIndex = 108,
    AlterDropIndex = 109,
    AlterClearIndex = 110,
    AlterMaterializeIndex = 111,
    AlterAddProjection = 112,
    AlterDropProjection = 113,
    AlterAddConstraint = 114,
    AlterDropConstraint = 115,
    AlterModifyOrderBy = 116,
    AlterModifyTtl = 117,
    AlterModifySetting = 118,
    AlterModifyComment = 119,
    AlterModifyQuery = 120,
    AlterMaterializeProjection = 121,
    AlterMaterializeTtl = 122,
    AlterResetSetting = 123,
    AlterDropPartition = 124,
    AlterAttachPartition = 125,
    AlterDetachPartition = 126,
    AlterFreezePartition = 127,
    AlterDeleteWhere = 128,
    AlterUpdateWhere = 129,
    // INSERT components
    InsertColumnsClause = 130,
    InsertValuesClause = 131,
    InsertFormatClause = 132,
    ValueRow = 133,
    // Expressions
    Expression = 134,
    Asterisk = 135,
    Identifier = 136,
    ColumnReference = 137,
    ColumnAlias = 138,
    QualifiedName = 139,
    FunctionCall = 140,
    AggregateFunction = 141,
    CastExpression = 142,
    CaseExpression = 143,
    BinaryExpression = 144,
    UnaryExpression = 145,
    BetweenExpression = 146,
    InExpression = 147,
    IsNullExpression = 148,
    IsDistinctFromExpression = 149,
    LikeExpression = 150,
    TupleExpression = 151,
    ArrayExpression = 152,
    ArrayAccessExpression = 153,
    DotAccessExpression = 154,
    TypedJsonAccessExpression = 155,
    MapExpression = 156,
    QueryParameterExpression = 157,
    SubqueryExpression = 158,
    LambdaExpression = 159,
    IntervalExpression = 160,
    WindowExpression = 161,
    ExistsExpression = 162,
    TernaryExpression = 163,
    QualifiedAsterisk = 164,
    NullsModifier = 165,
    FilterClause = 166,
    ColumnTransformer = 167,
    GroupingSetsClause = 168,
    GroupingSet = 169,
    WithTotalsClause = 170,
    // Literals
    NumberLiteral = 171,
    StringLiteral = 172,
    DateLiteral = 173,
    BooleanLiteral = 174,
    NullLiteral = 175,
    // Lists
    ColumnList = 176,
    ExpressionList = 177,
    OrderByList = 178,
    GroupByList = 179,
    SettingList = 180,
    IdentifierList = 181,
    // Join
    JoinType = 182,
    JoinConstraint = 183,
    // CASE components
    WhenClause = 184,
    // Compound items
    OrderByItem = 185,
    SettingItem = 186,
    WithExpressionItem = 187,
    TableAlias = 188,
    UsingList = 189,
    RenameItem = 190,
    // Data types
    DataType = 191,
    DataTypeParameters = 192,
    NestedDataType = 193,
    EnumValue = 194,
    // ClickHouse-specific
    PartitionExpression = 195,
    SampleExpression = 196,
    // EXPLAIN components
    ExplainKind = 197,
    // SHOW components
    ShowTarget = 198,
    LikeClause = 199,
    FromDatabaseClause = 200,
    // SYSTEM components
    SystemCommand = 201,
    // GRANT / REVOKE components
    PrivilegeList = 202,
    Privilege = 203,
    GrantTarget = 204,
    // KILL components
    KillTarget = 205,
    // DELETE / UPDATE components
    SetClause = 206,
    AssignmentList = 207,
    Assignment = 208,
    // Trivia
    Whitespace = 209,
    Comment = 210,
    // Identifiers and literals
    BareWord = 211,
    Number = 212,
    StringToken = 213,
    QuotedIdentifier = 214,
    // Brackets
    OpeningRoundBracket = 215,
    ClosingRoundBracket = 216,
    OpeningSquareBracket = 217,
    ClosingSquareBracket = 218,
    OpeningCurlyBrace = 219,
    ClosingCurlyBrace = 220,
    // Punctuation
    Comma = 221,
    Semicolon = 222,
    VerticalDelimiter = 223,
    Dot = 224,
    // Operators and special symbols
    Star = 225,
    HereDoc = 226,
    DollarSign = 227,
    Plus = 228,
    Minus = 229,
    Slash = 230,
    Percent = 231,
    Arrow = 232,
    QuestionMark = 233,
    Colon = 234,
    Caret = 235,
    DoubleColon = 236,
    Equals = 237,
    NotEquals = 238,
    Less = 239,
    Greater = 240,
    LessOrEquals = 241,
    GreaterOrEquals = 242,
    Spaceship = 243,
    PipeMark = 244,
    Concatenation = 245,
    // MySQL-style variables
    At = 246,
    DoubleAt = 247,
    // End of stream
    EndOfStream = 248,
    // Error tokens
    ErrorToken = 249,
    ErrorMultilineCommentIsNotClosed = 250,
    ErrorSingleQuoteIsNotClosed = 251,
    ErrorDoubleQuoteIsNotClosed = 252,
    ErrorBackQuoteIsNotClosed = 253,
    ErrorSingleExclamationMark = 254,
    ErrorSinglePipeMark = 255,
    ErrorWrongNumber = 256,
    ErrorMaxQuerySizeExceeded = 257,
}
