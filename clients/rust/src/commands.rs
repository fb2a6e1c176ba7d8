//! A method for each line of the protocol, for each type that can ask a server.

/// The requests with a key, for a type with `ask` and `ask_all`.
macro_rules! keyed_commands {
    ($self:ident, $receiver:ty) => {
        /// Stores a value, which lives for this time at most, if given. Returns false if the
        /// capacity is 0 and nothing is stored.
        pub fn set(
            $self: $receiver,
            key: impl AsRef<[u8]>,
            value: impl AsRef<[u8]>,
            ttl: Option<Duration>,
        ) -> Result<bool, Error> {
            let (key, value) = (key.as_ref(), value.as_ref());
            match $self.ask(&Request::Set { key, value, ttl })? {
                Reply::Stored(stored) => Ok(stored),
                _ => never(),
            }
        }

        /// Stores each key's value, in one pipeline. Returns whether each was stored, in their
        /// order: all, unless the capacity is 0.
        pub fn set_many<K: AsRef<[u8]>, V: AsRef<[u8]>>(
            $self: $receiver,
            values: &[(K, V)],
            ttl: Option<Duration>,
        ) -> Result<Vec<bool>, Error> {
            let replies = $self.ask_all(&sets_of(values, ttl))?;
            let stored = replies.into_iter().map(|reply| match reply {
                Reply::Stored(stored) => stored,
                _ => never(),
            });
            Ok(stored.collect())
        }

        /// Returns the key's live value, which counts as a use of it.
        pub fn get($self: $receiver, key: impl AsRef<[u8]>) -> Result<Option<Vec<u8>>, Error> {
            let key = key.as_ref();
            match $self.ask(&Request::Get { key })? {
                Reply::Value(value) => Ok(value),
                _ => never(),
            }
        }

        /// Returns the live value of each key, in their order, each of which counts as used. One
        /// pipeline, which is sent once more like a `get`.
        pub fn get_many<K: AsRef<[u8]>>(
            $self: $receiver,
            keys: &[K],
        ) -> Result<Vec<Option<Vec<u8>>>, Error> {
            let replies = $self.ask_all(&gets_of(keys))?;
            let values = replies.into_iter().map(|reply| match reply {
                Reply::Value(value) => value,
                _ => never(),
            });
            Ok(values.collect())
        }

        /// Returns whether the key has a live value. This does not count as a use.
        pub fn has($self: $receiver, key: impl AsRef<[u8]>) -> Result<bool, Error> {
            let key = key.as_ref();
            match $self.ask(&Request::Has { key })? {
                Reply::Present(present) => Ok(present),
                _ => never(),
            }
        }

        /// Returns whether the key has a live value, and counts as a use of it, which restarts its
        /// idle time. Its time to live stays as it is. The value is sent as for `get`, and dropped.
        pub fn touch($self: $receiver, key: impl AsRef<[u8]>) -> Result<bool, Error> {
            let key = key.as_ref();
            match $self.ask(&Request::Touch { key })? {
                Reply::Present(present) => Ok(present),
                _ => never(),
            }
        }

        /// Returns the key's live value; if it has none, the server loads one from elsewhere and
        /// stores it. `None` if there is none. The reply may take as long as the load.
        pub fn load($self: $receiver, key: impl AsRef<[u8]>) -> Result<Option<Vec<u8>>, Error> {
            let key = key.as_ref();
            match $self.ask(&Request::Load { key })? {
                Reply::Value(value) => Ok(value),
                _ => never(),
            }
        }

        /// Deletes the key's value, if it has one. The server does not say whether it had.
        pub fn delete($self: $receiver, key: impl AsRef<[u8]>) -> Result<(), Error> {
            let key = key.as_ref();
            $self.ask(&Request::Delete { key })?;
            Ok(())
        }

        /// Deletes the value of each key, in one pipeline.
        pub fn delete_many<K: AsRef<[u8]>>($self: $receiver, keys: &[K]) -> Result<(), Error> {
            $self.ask_all(&deletes_of(keys))?;
            Ok(())
        }

        /// Adds to the key's number (0 if it has no live value), stores the sum, and returns it.
        /// `None` if the capacity is 0. Without a time to live the sum has no deadline, whatever
        /// deadline the value had before.
        pub fn incr(
            $self: $receiver,
            key: impl AsRef<[u8]>,
            number: u64,
            ttl: Option<Duration>,
        ) -> Result<Option<u64>, Error> {
            let key = key.as_ref();
            match $self.ask(&Request::Incr { key, number, ttl })? {
                Reply::Sum(sum) => Ok(sum),
                _ => never(),
            }
        }

        /// The old name of `incr`, with a time to live in milliseconds.
        #[deprecated(note = "is now `incr`, with a `Duration`")]
        pub fn add(
            $self: $receiver,
            key: &[u8],
            number: u64,
            milliseconds: Option<u64>,
        ) -> Result<Option<u64>, Error> {
            $self.incr(key, number, milliseconds.map(Duration::from_millis))
        }
    };
}

/// The other requests, except for `QUIT`.
macro_rules! whole_commands {
    ($self:ident, $receiver:ty) => {
        /// Hides all stored values.
        pub fn clear($self: $receiver) -> Result<(), Error> {
            $self.ask(&Request::Clear)?;
            Ok(())
        }

        /// Hides all values whose keys begin with the prefix.
        pub fn drop_if($self: $receiver, prefix: impl AsRef<[u8]>) -> Result<(), Error> {
            let prefix = prefix.as_ref();
            $self.ask(&Request::DropIf { prefix })?;
            Ok(())
        }

        /// Returns the keys that have a live value, in byte order. This does not count as a use.
        /// There may be millions: they come in one reply.
        pub fn keys($self: $receiver) -> Result<Vec<Vec<u8>>, Error> {
            match $self.ask(&Request::Keys)? {
                Reply::Keys(keys) => Ok(keys),
                _ => never(),
            }
        }

        /// Runs maintenance, and returns what is held after it.
        pub fn sync($self: $receiver) -> Result<Held, Error> {
            match $self.ask(&Request::Sync)? {
                Reply::Held(held) => Ok(held),
                _ => never(),
            }
        }

        /// Succeeds if the server answers. Asks whether a key has a value (`HAS`), which is no use
        /// of it.
        pub fn ping($self: $receiver) -> Result<(), Error> {
            $self.ask(&Request::Ping)?;
            Ok(())
        }
    };
}

pub(crate) use {keyed_commands, whole_commands};
