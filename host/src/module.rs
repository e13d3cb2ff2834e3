//! The module: its state and its calls.

use crate::entries::{self, RawClaim};
use crate::{
    answered, layout, Claim, Class, Credential, Grants, Image, Listing, Name, Refusal, Session,
    UserClaim, Wanted, WireCredential, Words, FULL_IMAGE_LENGTH,
};

/// How many bytes a state has.
pub const STATE_LENGTH: usize = layout::state::LENGTH;

/// The version byte of version 1.0, the only one that can be selected.
pub const VERSION_1_0: u8 = 0x10;

/// The module, around the bytes of its state: its own, or lent ones, or such as are only looked at.
///
/// It always holds a state: it is made fresh, from an image, or of bytes that were tested. Each call returns what document 01 says, and a refusal changes nothing
/// but the next number of a process whose claim has passed: [`UserClaim`] has when.
///
/// ```
/// use slavotuk::{Credential, Grants, Module, Name, Refusal, Session, VERSION_1_0};
///
/// let mut grants = [Grants::UNPROVISIONED; 8];
/// grants[0] = Grants::of_word(15);
/// let mut module = Module::fresh(&grants)?;
///
/// let session = Session::try_from((0, 0))?;
/// let credential = Credential::new(0).unwrap();
/// let name = Name([7; 48]);
/// assert_eq!(module.start(session, credential, &name), Err(Refusal::Session));
/// module.open(session)?;
/// module.select(session, VERSION_1_0)?;
/// module.start(session, credential, &name)?;
/// # Ok::<(), Refusal>(())
/// ```
#[derive(Clone, Debug, PartialEq, Eq)]
pub struct Module<S = [u8; STATE_LENGTH]> {
    state: S,
}

impl Module {
    /// A fresh module of eight credentials: every session closed, no process. It is never refused by an archive whose state has [`STATE_LENGTH`] bytes.
    pub fn fresh(grants: &[Grants; Credential::COUNT]) -> Result<Module, Refusal> {
        let mut state = [0; STATE_LENGTH];
        make_fresh(&mut state, grants)?;
        Ok(Module { state })
    }

    /// The module that an image makes, in either layout: its credentials and words, every session closed, and its processes, saved, in their order and with their
    /// next numbers. [`Refusal::Message`] where the bytes are no image: where they are a damaged one, [`rescue`](crate::rescue) makes a good one of them. [`Image`] says
    /// what was lost with the power.
    ///
    /// ```
    /// use slavotuk::{Grants, Module, Refusal};
    ///
    /// let module = Module::fresh(&[Grants::of_word(15); 8])?;
    /// let mut image = module.image()?.to_vec();
    /// assert_eq!(Module::restore(&image), Ok(module));
    ///
    /// image.push(0); // a byte too many
    /// let refusal = Module::restore(&image).unwrap_err();
    /// assert_eq!((refusal, refusal.number()), (Refusal::Message, 14));
    /// # Ok::<(), Refusal>(())
    /// ```
    pub fn restore(image: &[u8]) -> Result<Module, Refusal> {
        let mut state = [0; STATE_LENGTH];
        answered(entries::restore(&mut state, image))?;
        Ok(Module { state })
    }

    /// A module that owns these bytes; [`Refusal::Argument`] where they hold no state.
    ///
    /// ```
    /// use slavotuk::{Grants, Module, Refusal, STATE_LENGTH};
    ///
    /// let module = Module::fresh(&[Grants::UNPROVISIONED; 8])?;
    /// let mut bytes = module.clone().into_bytes();
    /// assert_eq!(Module::from_bytes(bytes), Ok(module));
    /// bytes[STATE_LENGTH - 1] = 1;
    /// assert_eq!(Module::from_bytes(bytes), Err(Refusal::Argument));
    /// # Ok::<(), Refusal>(())
    /// ```
    pub fn from_bytes(bytes: [u8; STATE_LENGTH]) -> Result<Module, Refusal> {
        answered(entries::holds(&bytes))?;
        Ok(Module { state: bytes })
    }

    /// The bytes of its state.
    pub fn into_bytes(self) -> [u8; STATE_LENGTH] {
        self.state
    }
}

impl<'a> Module<&'a [u8]> {
    /// A module to be looked at alone, in a slice that is only read; [`Refusal::Argument`] where the slice holds no state.
    ///
    /// ```
    /// use slavotuk::{Module, Phase, Refusal, Session, STATE_LENGTH};
    ///
    /// static FLASH: [u8; STATE_LENGTH] = [0; STATE_LENGTH];
    /// let module = Module::read_only(&FLASH)?;
    /// assert_eq!(module.phase(Session::try_from((0, 0))?), Phase::Closed);
    ///
    /// assert_eq!(Module::read_only(&FLASH[1..]).unwrap_err(), Refusal::Argument);
    /// # Ok::<(), Refusal>(())
    /// ```
    pub fn read_only(state: &'a [u8]) -> Result<Self, Refusal> {
        answered(entries::holds(state))?;
        Ok(Module { state })
    }
}

impl<'a> Module<&'a mut [u8]> {
    /// A module in a lent slice; [`Refusal::Argument`] where the slice holds no state, and it is left as it was.
    ///
    /// ```
    /// use slavotuk::{Grants, Module, Refusal, Session};
    ///
    /// let mut flash = Module::fresh(&[Grants::UNPROVISIONED; 8])?.into_bytes();
    /// let mut module = Module::lent(&mut flash)?;
    /// module.open(Session::try_from((1, 3))?)?;
    /// assert_eq!(flash[7], 1);
    ///
    /// assert_eq!(Module::lent(&mut flash[1..]).unwrap_err(), Refusal::Argument);
    /// # Ok::<(), Refusal>(())
    /// ```
    pub fn lent(state: &'a mut [u8]) -> Result<Self, Refusal> {
        answered(entries::holds(state))?;
        Ok(Module { state })
    }

    /// Makes a fresh module in a lent slice, whatever it held; [`Refusal::Argument`] where its length is not a state's, and it is left as it was.
    ///
    /// ```
    /// use slavotuk::{Grants, Module};
    ///
    /// let mut flash = [0xff; slavotuk::STATE_LENGTH];
    /// let module = Module::fresh_in(&mut flash, &[Grants::UNPROVISIONED; 8])?;
    /// assert_eq!(module.processes().len(), 0);
    /// # Ok::<(), slavotuk::Refusal>(())
    /// ```
    pub fn fresh_in(
        state: &'a mut [u8],
        grants: &[Grants; Credential::COUNT],
    ) -> Result<Self, Refusal> {
        make_fresh(state, grants)?;
        Ok(Module { state })
    }

    /// Makes the module of an image in a lent slice, whatever it held; [`Refusal::Argument`] where its length is not a state's, then [`Refusal::Message`] where
    /// the bytes are no image. The slice is then left as it was.
    ///
    /// ```
    /// use slavotuk::{Grants, Module, Refusal};
    ///
    /// let image = Module::fresh(&[Grants::of_word(15); 8])?.image()?;
    /// let mut memory = [0xff; slavotuk::STATE_LENGTH];
    /// assert_eq!(Module::restore_in(&mut memory, &image[1..]).unwrap_err(), Refusal::Message);
    /// assert_eq!(memory, [0xff; slavotuk::STATE_LENGTH]);
    ///
    /// let module = Module::restore_in(&mut memory, &image)?;
    /// assert_eq!(module.image()?, image);
    /// # Ok::<(), Refusal>(())
    /// ```
    pub fn restore_in(state: &'a mut [u8], image: &[u8]) -> Result<Self, Refusal> {
        answered(entries::restore(state, image))?;
        Ok(Module { state })
    }
}

fn make_fresh(state: &mut [u8], grants: &[Grants; Credential::COUNT]) -> Result<(), Refusal> {
    let provisioned = grants.map(|grant| grant.is_provisioned().into());
    let words = grants.map(Grants::word);
    let seconds = grants.map(Grants::second);
    answered(entries::fresh(state, &provisioned, &words, &seconds))
}

impl<S: AsRef<[u8]>> Module<S> {
    /// The bytes of its state, as docs/STATE.md draws them.
    pub fn bytes(&self) -> &[u8] {
        self.state.as_ref()
    }

    /// The image of the module, to be kept while it is without power, in the new layout. It is never refused by an archive whose images have at most [`FULL_IMAGE_LENGTH`] bytes.
    pub fn image(&self) -> Result<Image, Refusal> {
        let mut bytes = [0; FULL_IMAGE_LENGTH];
        let length = self.write_image(&mut bytes)?;
        Ok(Image { bytes, length })
    }

    /// Writes the image of the module to the front of the buffer, in the new layout, and gives its length; later bytes stay as they were. Refusals: room.
    ///
    /// ```
    /// use slavotuk::layout::image::{second_at, word_at, MASK_AT, ROWS_AT};
    /// use slavotuk::{Grants, Module, Refusal};
    ///
    /// let mut grants = [Grants::UNPROVISIONED; 8];
    /// grants[1] = Grants::of_words(48, 32);
    /// let module = Module::fresh(&grants)?;
    ///
    /// let mut buffer = [0xaa; ROWS_AT + 2];
    /// assert_eq!(module.write_image(&mut buffer[..ROWS_AT - 1]), Err(Refusal::Room));
    /// assert_eq!(buffer, [0xaa; ROWS_AT + 2]);
    /// assert_eq!(module.write_image(&mut buffer)?, ROWS_AT);
    /// assert_eq!(buffer[MASK_AT..][..2], [2, 0]);
    /// assert_eq!(buffer[word_at(1)..][..4], [48, 0, 0, 0]);
    /// assert_eq!(buffer[second_at(1)..][..4], [32, 0, 0, 0]);
    /// assert_eq!(buffer[ROWS_AT..], [0xaa; 2]);
    /// # Ok::<(), Refusal>(())
    /// ```
    pub fn write_image(&self, buffer: &mut [u8]) -> Result<usize, Refusal> {
        let mut length = 0;
        answered(entries::image(self.bytes(), buffer, &mut length))?;
        Ok(length)
    }
}

impl<S: AsMut<[u8]>> Module<S> {
    /// Opens a closed session, without a version. Refusals: session.
    pub fn open(&mut self, session: Session) -> Result<(), Refusal> {
        answered(entries::open(
            self.state.as_mut(),
            session.port().into(),
            session.handle().into(),
        ))
    }

    /// Closes a session: its active processes are removed. Saved ones stay, and so do those of every other session, on either port. Refusals: session.
    pub fn close(&mut self, session: Session) -> Result<(), Refusal> {
        answered(entries::close(
            self.state.as_mut(),
            session.port().into(),
            session.handle().into(),
        ))
    }

    /// Chooses an open session's version; choosing it again changes nothing. Refusals: session, version.
    pub fn select(&mut self, session: Session, version: u8) -> Result<(), Refusal> {
        let state = self.state.as_mut();
        answered(entries::select(
            state,
            session.port().into(),
            session.handle().into(),
            version.into(),
        ))
    }

    /// Starts a user process with next number 0. Refusals: session, no version, credential, already active, name taken, full. The last two are of all processes, also
    /// those on the other port.
    pub fn start(
        &mut self,
        session: Session,
        credential: Credential,
        name: &Name,
    ) -> Result<(), Refusal> {
        let state = self.state.as_mut();
        answered(entries::start(
            state,
            session.port().into(),
            session.handle().into(),
            credential.into(),
            &name.0,
        ))
    }

    /// Takes a saved process up again in this session, with its old next number, on whichever port it was saved. Refusals: session, no version, credential, no process,
    /// already active.
    ///
    /// ```
    /// use slavotuk::{Credential, Grants, Module, Name, Refusal, Session, UserClaim, VERSION_1_0};
    ///
    /// let (credential, name) = (Credential::try_from(0)?, Name([0x11; 48]));
    /// let (one, another) = (Session::try_from((0, 2))?, Session::try_from((1, 0))?);
    /// let mut module = Module::fresh(&[Grants::of_word(15); 8])?;
    /// for session in [one, another] {
    ///     module.open(session)?;
    ///     module.select(session, VERSION_1_0)?;
    /// }
    /// module.start(one, credential, &name)?;
    /// module.end(one, UserClaim { credential, number: 0, verdict: true }, true)?;
    ///
    /// module.continue_saved(another, credential, &name)?;
    /// let process = module.processes().next().unwrap();
    /// assert_eq!((process.session(), process.next_number()), (Some(another), Some(1)));
    /// # Ok::<(), Refusal>(())
    /// ```
    pub fn continue_saved(
        &mut self,
        session: Session,
        credential: Credential,
        name: &Name,
    ) -> Result<(), Refusal> {
        let state = self.state.as_mut();
        answered(entries::continue_saved(
            state,
            session.port().into(),
            session.handle().into(),
            credential.into(),
            &name.0,
        ))
    }

    /// Starts the session's elevation. Refusals: session, no version, credential, verdict, already active, name taken, full. The last two are of all processes, also
    /// those on the other port.
    pub fn elevate(
        &mut self,
        session: Session,
        credential: Credential,
        name: &Name,
        verdict: bool,
    ) -> Result<(), Refusal> {
        let state = self.state.as_mut();
        answered(entries::elevate(
            state,
            session.port().into(),
            session.handle().into(),
            credential.into(),
            &name.0,
            verdict.into(),
        ))
    }

    /// Removes the session's elevation; the session stays open. Refusals: session, no version, no process.
    pub fn drop_elevation(&mut self, session: Session) -> Result<(), Refusal> {
        answered(entries::drop(
            self.state.as_mut(),
            session.port().into(),
            session.handle().into(),
        ))
    }

    /// Ends the claim's own process: it is saved where `keep` is set, else removed. Refusals: session, no version, the claim's, not granted, only elevated. The last
    /// two spend the number, and the process stays active. The claim is always a user's, so whoever may save only under elevation can't save.
    pub fn end(&mut self, session: Session, claim: UserClaim, keep: bool) -> Result<(), Refusal> {
        answered(entries::end(
            self.state.as_mut(),
            session.port().into(),
            session.handle().into(),
            claim.credential.into(),
            claim.number,
            claim.verdict.into(),
            keep.into(),
        ))
    }

    /// One record of a device operation. Refusals: argument where the class is the module's own, session, no version, the claim's, not granted, only elevated. The
    /// last two spend the number.
    ///
    /// The claim's refusals are, for an elevated claim, no process; for a user's: credential, no process, spent, out of turn, verdict.
    pub fn record(
        &mut self,
        session: Session,
        claim: impl Into<Claim>,
        class: Class,
    ) -> Result<(), Refusal> {
        let state = self.state.as_mut();
        answered(entries::record(
            state,
            session.port().into(),
            session.handle().into(),
            raw(claim),
            class.into(),
        ))
    }

    /// Writes the listing of the wanted processes, those of both ports, to the front of the buffer; later bytes stay as they were. Refusals: session, no version,
    /// the claim's, not granted, only elevated, room. The last three spend the number.
    ///
    /// A buffer of [`FULL_LISTING_LENGTH`](crate::FULL_LISTING_LENGTH) bytes is long enough for every listing. Whoever tries again with a longer one needs a claim
    /// with the next number:
    ///
    /// ```
    /// use slavotuk::layout::listing::row_at;
    /// use slavotuk::{Credential, Grants, Module, Name, Refusal, Session, UserClaim, Wanted, FULL_LISTING_LENGTH, VERSION_1_0};
    ///
    /// let (session, credential) = (Session::try_from((0, 0))?, Credential::try_from(0)?);
    /// let mut module = Module::fresh(&[Grants::of_word(15); 8])?;
    /// module.open(session)?;
    /// module.select(session, VERSION_1_0)?;
    /// module.start(session, credential, &Name([0x11; 48]))?;
    ///
    /// let claim = UserClaim { credential, number: 0, verdict: true };
    /// let mut buffer = [0xaa; FULL_LISTING_LENGTH];
    /// assert_eq!(module.list(session, claim, Wanted::All, &mut buffer[..row_at(1) - 1]), Err(Refusal::Room));
    /// assert_eq!(buffer, [0xaa; FULL_LISTING_LENGTH]);
    /// assert_eq!(module.list(session, claim, Wanted::All, &mut buffer), Err(Refusal::OutOfTurn));
    /// let claim = UserClaim { number: 1, ..claim };
    /// assert_eq!(module.list(session, claim, Wanted::All, &mut buffer)?.rows().len(), 1);
    /// # Ok::<(), Refusal>(())
    /// ```
    pub fn list<'b>(
        &mut self,
        session: Session,
        claim: impl Into<Claim>,
        wanted: Wanted,
        buffer: &'b mut [u8],
    ) -> Result<Listing<'b>, Refusal> {
        let mut length = 0;
        answered(entries::list(
            self.state.as_mut(),
            session.port().into(),
            session.handle().into(),
            raw(claim),
            WireCredential::from(wanted).0.into(),
            buffer,
            &mut length,
        ))?;
        Listing::read(buffer.get(..length).unwrap_or_default())
    }

    /// Removes the process of that name, on whichever port. A process that the claim may not kill is answered as one that isn't there, also where a user's claim
    /// could kill it only under elevation. Refusals: session, no version, the claim's, no process. The last spends the number, so that a kill that was refused is not
    /// good once a process of that name has started.
    pub fn kill(
        &mut self,
        session: Session,
        claim: impl Into<Claim>,
        name: &Name,
    ) -> Result<(), Refusal> {
        let state = self.state.as_mut();
        answered(entries::kill(
            state,
            session.port().into(),
            session.handle().into(),
            raw(claim),
            &name.0,
        ))
    }

    /// Sets both words of a credential. Refusals: session, no version, the claim's, not granted, only elevated, credential. The last three spend the number.
    pub fn set_word(
        &mut self,
        session: Session,
        claim: impl Into<Claim>,
        target: Credential,
        words: Words,
    ) -> Result<(), Refusal> {
        let state = self.state.as_mut();
        answered(entries::set_word(
            state,
            session.port().into(),
            session.handle().into(),
            raw(claim),
            target.into(),
            words.word,
            words.second,
        ))
    }
}

/// A claim as the entries take it. Of an elevated one only the kind is read.
fn raw(claim: impl Into<Claim>) -> RawClaim {
    match claim.into() {
        Claim::Elevated => RawClaim::ELEVATED,
        Claim::User(user) => RawClaim {
            kind: 0,
            credential: user.credential.into(),
            number: user.number,
            verdict: user.verdict.into(),
        },
    }
}
