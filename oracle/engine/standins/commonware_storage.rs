//! Stand-in for `commonware_storage`: the segmented journal over the journal's value in `world`.
//! Each operation may be the one at which the power goes; then nothing comes after it.

pub mod journal {
    pub mod segmented {
        pub mod variable {
            use commonware_codec::{Encode, Error as CodecError, Read, decode};
            use commonware_runtime::{ReadOptions, buffer::paged::CacheRef};
            use std::marker::PhantomData;
            use std::num::NonZeroUsize;
            use world::{hex, nothing_after, operation};

            pub struct Config<C> {
                pub partition: String,
                pub compression: Option<u8>,
                pub codec_config: C,
                pub page_cache: CacheRef,
                pub write_buffer: NonZeroUsize,
            }

            #[derive(Debug)]
            pub enum Error {
                Refused(world::Refused),
                Codec(CodecError),
            }

            pub struct Journal<E, V: Read> {
                codec: V::Cfg,
                context: PhantomData<E>,
            }

            /// The records that were there when the reading began.
            pub struct Replay<E, V: Read> {
                journal: Journal<E, V>,
                records: std::vec::IntoIter<(u64, Vec<u8>)>,
            }

            impl<E, V: Read + Encode> Journal<E, V> {
                pub async fn init(_context: E, cfg: Config<V::Cfg>) -> Result<Self, Error> {
                    Ok(Self {
                        codec: cfg.codec_config,
                        context: PhantomData,
                    })
                }

                /// Reading makes durable all that it reads.
                pub async fn replay(
                    self,
                    _section: u64,
                    _offset: u64,
                    _buffer: NonZeroUsize,
                    _options: ReadOptions,
                ) -> Result<Replay<E, V>, Error> {
                    act(0, "read".to_string()).await;
                    let records = world::with(|w| {
                        w.disk.sync_all();
                        let all = w.disk.sections.iter();
                        let of = |(at, held): (&u64, &world::Section)| {
                            held.durable
                                .iter()
                                .map(|r| (*at, r.clone()))
                                .collect::<Vec<_>>()
                        };
                        all.flat_map(of).collect::<Vec<_>>()
                    });
                    Ok(Replay {
                        journal: self,
                        records: records.into_iter(),
                    })
                }

                pub async fn append(self, section: u64, value: &V) -> Result<Self, Error> {
                    let record = value.encode().to_vec();
                    let line = format!("append {section} {}", hex(&record));
                    powered(Some((section, &record)), 0).await;
                    world::with(|w| w.disk.append(section, record)).map_err(Error::Refused)?;
                    world::with(|w| w.acts.push(line));
                    Ok(self)
                }

                pub async fn sync(self, section: u64) -> Result<Self, Error> {
                    act(0, format!("sync {section}")).await;
                    world::with(|w| w.disk.sync(section));
                    Ok(self)
                }

                pub async fn prune(self, section: u64) -> Result<Self, Error> {
                    act(section, format!("prune {section}")).await;
                    world::with(|w| w.disk.prune(section));
                    Ok(self)
                }

                pub async fn sync_all(self) -> Result<Self, Error> {
                    act(0, "sync all".to_string()).await;
                    world::with(|w| w.disk.sync_all());
                    Ok(self)
                }
            }

            impl<E, V: Read> Replay<E, V> {
                /// Section, offset, size and value of the next record.
                pub async fn next(&mut self) -> Option<Result<(u64, u64, u32, V), Error>> {
                    let (section, record) = self.records.next()?;
                    let read = decode(&record, &self.journal.codec).map_err(Error::Codec);
                    Some(read.map(|value| (section, 0, record.len() as u32, value)))
                }

                pub fn finish(self) -> Result<Journal<E, V>, Error> {
                    Ok(self.journal)
                }
            }

            /// Goes on, unless the power goes at this operation.
            async fn powered(append: Option<(u64, &[u8])>, pruning: u64) {
                if !operation(append, pruning) {
                    nothing_after().await;
                }
            }

            async fn act(pruning: u64, line: String) {
                powered(None, pruning).await;
                world::with(|w| w.acts.push(line));
            }
        }
    }
}
