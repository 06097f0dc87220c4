//! Numbers of blocks, tables, types and so on, and a list that is read by them.

use std::marker::PhantomData;

/// A number that names one thing of a list.
pub trait Id: Copy {
    fn place(self) -> usize;
}

macro_rules! ids {
    ($($name:ident)*) => {$(
        #[derive(Clone, Copy, Debug, PartialEq, Eq, Hash)]
        pub struct $name(pub u32);

        impl Id for $name {
            fn place(self) -> usize {
                self.0 as usize
            }
        }
    )*};
}

ids! { BlockId CaseTableId CheckMsgId ConstId CovItem ForeignId FuncId NativeId TyId }

/// Where an instruction comes from. The comparison lets it carry the loc word and the place that the instruction had
/// in the picture lent, so that it is found again wherever the pass puts it.
#[derive(Clone, Copy, Debug, PartialEq, Eq)]
pub struct StmtId {
    pub loc: u32,
    pub place: u32,
}

/// A list read by numbers of one sort.
#[derive(Clone, Debug)]
pub struct Table<I, T> {
    items: Vec<T>,
    sort: PhantomData<I>,
}

impl<I: Id, T> Table<I, T> {
    pub fn new(items: Vec<T>) -> Self {
        Table { items, sort: PhantomData }
    }

    pub fn len(&self) -> usize {
        self.items.len()
    }

    pub fn is_empty(&self) -> bool {
        self.items.is_empty()
    }

    pub fn get(&self, i: I) -> Option<&T> {
        self.items.get(i.place())
    }

    pub fn get_mut(&mut self, i: I) -> Option<&mut T> {
        self.items.get_mut(i.place())
    }

    pub fn values(&self) -> std::slice::Iter<'_, T> {
        self.items.iter()
    }

    pub fn push(&mut self, item: T) {
        self.items.push(item);
    }
}
