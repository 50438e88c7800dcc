//! Messages: a head, a user header and a payload in one slot of the library, read and written in place, outside the
//! service's lock.
//!
//! A slot is one block of bytes, aligned to 16. The sender's loan writes the head, under the lock, and the user header,
//! and the sender the payload:
//!
//! ```text
//! | RequestHead or ResponseHead, 64 bytes | user header | payload: a value, or elements |
//! ```
//!
//! **Why references into a slot are sound.** As long as a message lives, no byte that a reference of it leads to is
//! written, moved or freed but through that message. The `unsafe` blocks of the crate cite these points:
//!
//! 1. *The library's writes.* Of the calls that the crate makes, one touches bytes of a message: the loan in place,
//!    which may clear the slot that it hands out. Sends, receives, releases and queries read and write a slot's length
//!    and holders, never its bytes.
//! 2. *Loans of other messages.* A loan takes a slot that nobody holds. If the slot is too short, the loan moves its
//!    bytes, to which no message leads. The bytes of a slot lie in a block of their own, so that no other slot moves
//!    along.
//! 3. *Lifetime.* A living message keeps its slot: a loan, a pending response, an active request and a received
//!    response each hold it, and a port that is dropped leaves its slots to its messages. `rr.h`: "A payload stays
//!    where it is as long as a handle of its message lives".
//! 4. *Writers.* Only `RequestMut`, `ResponseMut` and their uninitialised forms give out `&mut`, by `&mut self`. Such a
//!    message is not `Clone`, and its send consumes it. After the send every message of the slot gives out `&` alone:
//!    the pending response and the active requests of several servers read one request at the same time, as the
//!    contract of [`ZeroCopySend`](crate::zero_copy_send) allows.
//! 5. *Order.* The writer's stores happen before the send's unlock, and the reader's loads after its receive's lock.
//!    The reader's loads happen before its release's unlock, and the slot's next loan after a later lock. In a service
//!    of one thread the program's order does.
//! 6. *The end.* A release copies the fields of the head that it needs before it calls the library, and no reference
//!    outlives that call.
//! 7. *Types.* All ports of a service have the types with which it was created: `open` compares them
//!    (`TypeDetail::is_compatible`).
//! 8. *The head.* The sequence number is written before the send, under the lock, by the message's owner. Only `active`
//!    changes after the send: it is atomic. All else in a head is constant.
use crate::core::Core;
use crate::head::{HEAD, Head, RequestHead, ResponseHead};
use crate::hub::Slot;
use crate::policy::Policy;
use crate::raw::Id;
use crate::state::State;
use crate::zero_copy_send::Elements;
use std::marker::PhantomData;
use std::mem::ManuallyDrop;
use std::ptr::{self, NonNull};

/// The alignment of a slot.
const ALIGNMENT: usize = 16;

const fn round_up(at: usize, alignment: usize) -> usize {
    (at + alignment - 1) & !(alignment - 1)
}

/// Returns how many bytes a slot needs in addition to its elements, for a user header of this size and alignment and
/// elements of this alignment. Where an alignment exceeds that of a slot, there is room to move: all who read a slot
/// find it at one address, and round up alike.
pub(crate) const fn fixed_bytes(header: (usize, usize), alignment: usize) -> usize {
    if header.1 > ALIGNMENT || alignment > ALIGNMENT {
        HEAD + header.1 + header.0 + alignment
    } else {
        round_up(round_up(HEAD, header.1) + header.0, alignment)
    }
}

/// Returns the address of what follows `bytes` bytes of a slot, in this alignment.
#[inline]
fn place<T>(slot: NonNull<u8>, bytes: usize) -> NonNull<T> {
    let address = slot.addr().get();
    // Up to the alignment of a slot, the offset is the same in all slots.
    let base = if align_of::<T>() > ALIGNMENT { address } else { 0 };
    slot.map_addr(|it| it.saturating_add(round_up(base + bytes, align_of::<T>()) - base))
        .cast()
}

/// Returns the address of the user header in a slot.
#[inline]
fn user_header_in<H>(slot: NonNull<u8>) -> NonNull<H> {
    place(slot, HEAD)
}

/// The places of a user header `H` and of elements `T` in a slot.
pub(crate) struct Layout<H, T>(PhantomData<(H, T)>);

impl<H, T> Layout<H, T> {
    /// Returns how many bytes a slot needs, unless a `usize` does not count them.
    #[inline]
    pub fn bytes(elements: usize) -> Option<usize> {
        let fixed = const { fixed_bytes((size_of::<H>(), align_of::<H>()), align_of::<T>()) };
        elements.checked_mul(size_of::<T>())?.checked_add(fixed)
    }

    /// Returns the addresses of the user header and of the first element, which lie in a slot of `Layout::bytes` bytes.
    #[inline]
    pub fn places(slot: NonNull<u8>) -> (NonNull<H>, NonNull<T>) {
        let user_header = user_header_in::<H>(slot);
        let behind = user_header.addr().get() - slot.addr().get() + size_of::<H>();
        (user_header, place(slot, behind))
    }
}

/// The kind of a message: its head, and how it is released.
pub(crate) trait Kind {
    type Head: Head;

    fn release(state: &mut State, id: &Id, seat: usize, head: NonNull<Self::Head>);
}

/// A request on loan.
pub(crate) enum Loaned {}
/// A request that was sent.
pub(crate) enum Pending {}
/// A request that a server received.
pub(crate) enum Active {}
/// A response on loan.
pub(crate) enum Answer {}
/// A response that a client received.
pub(crate) enum Received {}

/// Kinds of messages that their owner may still write (point 4).
pub(crate) trait OnLoan: Kind {}
impl OnLoan for Loaned {}
impl OnLoan for Answer {}

impl Kind for Loaned {
    type Head = RequestHead;

    fn release(state: &mut State, id: &Id, seat: usize, _: NonNull<RequestHead>) {
        state.release_request(id, seat);
    }
}

impl Kind for Pending {
    type Head = RequestHead;

    #[inline]
    fn release(state: &mut State, id: &Id, seat: usize, head: NonNull<RequestHead>) {
        // SAFETY: points 6 and 8.
        let sequence = unsafe { (*head.as_ptr()).sequence };
        state.release_pending(id, seat, sequence);
    }
}

impl Kind for Active {
    type Head = RequestHead;

    #[inline]
    fn release(state: &mut State, id: &Id, seat: usize, head: NonNull<RequestHead>) {
        // SAFETY: points 6 and 8.
        unsafe { state.release_active(id, seat, head) }
    }
}

impl Kind for Answer {
    type Head = ResponseHead;

    fn release(state: &mut State, id: &Id, seat: usize, _: NonNull<ResponseHead>) {
        state.release_answer(id, seat);
    }
}

impl Kind for Received {
    type Head = ResponseHead;

    #[inline]
    fn release(state: &mut State, id: &Id, seat: usize, _: NonNull<ResponseHead>) {
        state.release_response(id, seat);
    }
}

/// A message of the library, and the addresses of its parts. Its drop releases it.
pub(crate) struct Message<Safety: Policy, K: Kind, H, T: ?Sized> {
    core: Safety::Ref<Core<Safety>>,
    id: Id,
    /// The seat of the port to which the message belongs: the sender's on loan, else the receiver's; a pending
    /// response's is its client's.
    seat: usize,
    head: NonNull<K::Head>,
    payload: NonNull<T>,
    user_header: PhantomData<NonNull<H>>,
}

// SAFETY: points 3 to 5 hold of any thread, since the service has a lock if its reference goes to other threads. The
// parts are plain values, which any thread may read, by the contract of `ZeroCopySend`.
unsafe impl<Safety: Policy, K: Kind, H, T: ?Sized> Send for Message<Safety, K, H, T> where
    Safety::Ref<Core<Safety>>: Send + Sync
{
}
// SAFETY: as above.
unsafe impl<Safety: Policy, K: Kind, H, T: ?Sized> Sync for Message<Safety, K, H, T> where
    Safety::Ref<Core<Safety>>: Send + Sync
{
}

impl<Safety: Policy, K: Kind, H, T: Elements + ?Sized> Message<Safety, K, H, T> {
    /// Takes a message that was just loaned, and writes its user header.
    ///
    /// # Safety
    ///
    /// The library loaned it with `Layout::bytes(head.elements())` bytes, its head was written, and the port has this
    /// seat.
    #[inline]
    pub unsafe fn loaned(core: Safety::Ref<Core<Safety>>, slot: Slot, seat: usize, user_header: H) -> Self {
        // SAFETY: nobody else has the slot (point 2), and the parts lie in it, aligned and apart.
        unsafe {
            Layout::<H, T::Element>::places(slot.at).0.write(user_header);
            Self::written(core, slot, seat)
        }
    }

    /// Takes a message whose head and user header were written.
    ///
    /// # Safety
    ///
    /// They were written in the library's slot with these types, and so was the payload, unless its type says
    /// otherwise. The message has this kind, and its port this seat.
    #[inline]
    pub unsafe fn written(core: Safety::Ref<Core<Safety>>, slot: Slot, seat: usize) -> Self {
        let head: NonNull<K::Head> = slot.at.cast();
        // SAFETY: the head was written, and tells for how many elements the slot has bytes.
        unsafe {
            let first = Layout::<H, T::Element>::places(slot.at).1;
            let payload = T::at(first, head.as_ref().elements());
            Message { core, id: slot.id, seat, head, payload, user_header: PhantomData }
        }
    }
}

impl<Safety: Policy, K: Kind, H, T: ?Sized> Message<Safety, K, H, T> {
    #[inline]
    pub fn core(&self) -> &Safety::Ref<Core<Safety>> {
        &self.core
    }

    #[inline]
    pub fn id(&self) -> Id {
        self.id
    }

    #[inline]
    pub fn seat(&self) -> usize {
        self.seat
    }

    #[inline]
    pub fn head_at(&self) -> NonNull<K::Head> {
        self.head
    }

    #[inline]
    pub fn head(&self) -> &K::Head {
        // SAFETY: points 3, 5 and 8.
        unsafe { self.head.as_ref() }
    }

    #[inline]
    pub fn user_header(&self) -> &H {
        // SAFETY: points 3 to 5.
        unsafe { user_header_in::<H>(self.head.cast()).as_ref() }
    }

    #[inline]
    pub fn payload(&self) -> &T {
        // SAFETY: points 3 to 5, and 7.
        unsafe { self.payload.as_ref() }
    }

    /// Gives the payload another type.
    ///
    /// # Safety
    ///
    /// The payload is initialised as that type asks.
    #[inline]
    pub unsafe fn with_payload<R: ?Sized>(
        self,
        retype: impl FnOnce(NonNull<T>) -> NonNull<R>,
    ) -> Message<Safety, K, H, R> {
        let payload = retype(self.payload);
        self.rebuilt(payload)
    }

    /// Makes it a message of another kind, which the library made of it.
    #[inline]
    pub fn turned<L: Kind<Head = K::Head>>(self) -> Message<Safety, L, H, T> {
        let payload = self.payload;
        self.rebuilt(payload)
    }

    #[inline]
    fn rebuilt<L: Kind<Head = K::Head>, R: ?Sized>(self, payload: NonNull<R>) -> Message<Safety, L, H, R> {
        let this = ManuallyDrop::new(self);
        Message {
            // SAFETY: `this` is not dropped, so that its reference moves.
            core: unsafe { ptr::read(&this.core) },
            id: this.id,
            seat: this.seat,
            head: this.head,
            payload,
            user_header: PhantomData,
        }
    }

    /// Drops a message that the library has released.
    #[inline]
    pub fn forget(self) {
        let this = ManuallyDrop::new(self);
        // SAFETY: `this` is not dropped, so that its reference moves.
        drop(unsafe { ptr::read(&this.core) });
    }
}

impl<Safety: Policy, K: OnLoan, H, T: ?Sized> Message<Safety, K, H, T> {
    #[inline]
    pub fn user_header_mut(&mut self) -> &mut H {
        // SAFETY: point 4.
        unsafe { user_header_in::<H>(self.head.cast()).as_mut() }
    }

    #[inline]
    pub fn payload_mut(&mut self) -> &mut T {
        // SAFETY: point 4.
        unsafe { self.payload.as_mut() }
    }
}

impl<Safety: Policy, K: Kind, H, T: ?Sized> Drop for Message<Safety, K, H, T> {
    #[inline]
    fn drop(&mut self) {
        let (id, seat, head) = (self.id, self.seat, self.head);
        self.core.call(|state| K::release(state, &id, seat, head));
    }
}

/// The most bytes of a value that is copied to its slot under the lock.
const COPIED: usize = 256;

/// A value of up to 256 bytes with its user header, which one critical section copies to a slot.
pub(crate) struct Copied<H, T> {
    user_header: ManuallyDrop<H>,
    value: ManuallyDrop<T>,
}

impl<H, T> Copied<H, T> {
    pub const FITS: bool = size_of::<T>() <= COPIED;

    #[inline]
    pub fn new(user_header: H, value: T) -> Self {
        Copied { user_header: ManuallyDrop::new(user_header), value: ManuallyDrop::new(value) }
    }

    /// Writes the user header and the payload of a message.
    ///
    /// # Safety
    ///
    /// It was just loaned, with `Layout::bytes(1)` bytes.
    #[inline]
    pub unsafe fn write(&self, slot: NonNull<u8>) {
        // SAFETY: nobody else has the slot (point 2), and the parts lie in it, aligned and apart. Each is moved at most
        // once: `self` drops none.
        unsafe {
            let (user_header, payload) = Layout::<H, T>::places(slot);
            user_header.copy_from_nonoverlapping(NonNull::from(&*self.user_header), 1);
            payload.copy_from_nonoverlapping(NonNull::from(&*self.value), 1);
        }
    }
}
