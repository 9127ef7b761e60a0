//! The syntax tree without its parser: the parts of ast/*.rs that the five files touch.
#![allow(dead_code)] // some variants are only matched, never made

#[derive(Debug)]
pub struct SyntaxTree {
    pub schemas: Vec<Schema>,
}

#[derive(Debug)]
pub struct Schema {
    pub name: String,
    pub entities: Vec<Entity>,
    pub types: Vec<TypeDecl>,
    pub subtype_constraints: Vec<SubTypeConstraint>,
}

#[derive(Debug)]
pub struct Entity {
    pub name: String,
    pub constraint: Option<Constraint>,
    pub subtype_of: Option<SubTypeDecl>,
}

#[derive(Debug)]
pub enum Constraint {
    AbstractEntity,
    AbstractSuperType(Option<SuperTypeExpression>),
    SuperTypeRule(SuperTypeExpression),
}

#[derive(Debug)]
pub struct SubTypeDecl {
    pub entity_references: Vec<String>,
}

#[derive(Debug)]
pub enum SuperTypeExpression {
    Reference(String),
    AndOr { factors: Vec<SuperTypeExpression> },
    And { terms: Vec<SuperTypeExpression> },
    OneOf { exprs: Vec<SuperTypeExpression> },
}

#[derive(Debug)]
pub struct SubTypeConstraint {
    pub entity: String,
    pub expr: Option<SuperTypeExpression>,
}

#[derive(Debug)]
pub struct TypeDecl {
    pub type_id: String,
    pub underlying_type: Type,
}

#[derive(Debug)]
pub enum Type {
    Simple(SimpleType),
    Named(String),
    Set {
        base: Box<Type>,
        bound: Option<Bound>,
    },
    List {
        base: Box<Type>,
        bound: Option<Bound>,
        unique: bool,
    },
    Enumeration,
    /// Stands for every type that the five files do not name
    Select,
}

#[derive(Debug, Clone, Copy, PartialEq, Eq, Hash)]
pub enum SimpleType {
    Number,
    Real,
    Integer,
    Logical,
    Boolen,
    String_,
    Binary,
}

#[derive(Debug)]
pub struct Bound;
