//! Tree walks over `Arc<dyn ...>`, with datafusion's order and its habit of
//! rebuilding a node only if a child changed.

use crate::Result;
use std::sync::Arc;

#[derive(Debug, Clone, Copy, PartialEq, Eq)]
pub enum TreeNodeRecursion {
    Continue,
    Jump,
    Stop,
}

#[derive(Debug)]
pub struct Transformed<T> {
    pub data: T,
    pub transformed: bool,
    pub tnr: TreeNodeRecursion,
}

impl<T> Transformed<T> {
    pub fn yes(data: T) -> Self {
        Transformed {
            data,
            transformed: true,
            tnr: TreeNodeRecursion::Continue,
        }
    }
    pub fn no(data: T) -> Self {
        Transformed {
            data,
            transformed: false,
            tnr: TreeNodeRecursion::Continue,
        }
    }
}

pub trait DynTreeNode {
    fn arc_children(&self) -> Vec<&Arc<Self>>;
    fn with_new_arc_children(
        &self,
        arc_self: Arc<Self>,
        new_children: Vec<Arc<Self>>,
    ) -> Result<Arc<Self>>;
}

pub trait TreeNode: Sized {
    fn apply<F: FnMut(&Self) -> Result<TreeNodeRecursion>>(
        &self,
        f: F,
    ) -> Result<TreeNodeRecursion>;
    fn transform_down<F: FnMut(Self) -> Result<Transformed<Self>>>(
        self,
        f: F,
    ) -> Result<Transformed<Self>>;
    fn transform_up<F: FnMut(Self) -> Result<Transformed<Self>>>(
        self,
        f: F,
    ) -> Result<Transformed<Self>>;
}

fn apply<T: DynTreeNode + ?Sized>(
    node: &Arc<T>,
    f: &mut dyn FnMut(&Arc<T>) -> Result<TreeNodeRecursion>,
) -> Result<TreeNodeRecursion> {
    match f(node)? {
        TreeNodeRecursion::Continue => {
            for c in node.arc_children() {
                if apply(c, f)? == TreeNodeRecursion::Stop {
                    return Ok(TreeNodeRecursion::Stop);
                }
            }
            Ok(TreeNodeRecursion::Continue)
        }
        TreeNodeRecursion::Jump => Ok(TreeNodeRecursion::Continue),
        TreeNodeRecursion::Stop => Ok(TreeNodeRecursion::Stop),
    }
}

type Step<'a, T> = &'a mut dyn FnMut(Arc<T>) -> Result<Transformed<Arc<T>>>;

fn children<T: DynTreeNode + ?Sized>(
    node: Arc<T>,
    walk: fn(Arc<T>, Step<'_, T>) -> Result<Transformed<Arc<T>>>,
    f: Step<'_, T>,
) -> Result<Transformed<Arc<T>>> {
    let old = node.arc_children();
    if old.is_empty() {
        return Ok(Transformed::no(node));
    }
    let mut changed = false;
    let mut new = Vec::with_capacity(old.len());
    for c in old {
        let t = walk(Arc::clone(c), f)?;
        changed |= t.transformed;
        new.push(t.data);
    }
    if changed {
        Ok(Transformed::yes(
            node.with_new_arc_children(Arc::clone(&node), new)?,
        ))
    } else {
        Ok(Transformed::no(node))
    }
}

fn down<T: DynTreeNode + ?Sized>(
    node: Arc<T>,
    f: Step<'_, T>,
) -> Result<Transformed<Arc<T>>> {
    let t = f(node)?;
    let mut r = children(t.data, down, f)?;
    r.transformed |= t.transformed;
    Ok(r)
}

fn up<T: DynTreeNode + ?Sized>(
    node: Arc<T>,
    f: Step<'_, T>,
) -> Result<Transformed<Arc<T>>> {
    let t = children(node, up, f)?;
    let mut r = f(t.data)?;
    r.transformed |= t.transformed;
    Ok(r)
}

// Each step of the copied files answers Continue, so transforms don't look at `tnr`.
impl<T: DynTreeNode + ?Sized> TreeNode for Arc<T> {
    fn apply<F: FnMut(&Self) -> Result<TreeNodeRecursion>>(
        &self,
        mut f: F,
    ) -> Result<TreeNodeRecursion> {
        apply(self, &mut f)
    }
    fn transform_down<F: FnMut(Self) -> Result<Transformed<Self>>>(
        self,
        mut f: F,
    ) -> Result<Transformed<Self>> {
        down(self, &mut f)
    }
    fn transform_up<F: FnMut(Self) -> Result<Transformed<Self>>>(
        self,
        mut f: F,
    ) -> Result<Transformed<Self>> {
        up(self, &mut f)
    }
}
