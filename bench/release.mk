# How files of RocksDB and LevelDB are built here: as releases are, since Debian's libraries have
# assertions on.
RELEASE := -std=c++17 -O2 -DNDEBUG -w -ffunction-sections -fdata-sections \
    -DROCKSDB_PLATFORM_POSIX -DROCKSDB_LIB_IO_POSIX -DOS_LINUX -DROCKSDB_PTHREAD_ADAPTIVE_MUTEX \
    -DROCKSDB_MALLOC_USABLE_SIZE -DROCKSDB_SCHED_GETCPU_PRESENT -DLEVELDB_PLATFORM_POSIX=1
