{-# LANGUAGE BangPatterns #-}

-- The mixes by GHC's software transactional memory.
-- Each round is timed from before its threads are started until they have ended. Prints a line for each: who, mix, threads, tenths
-- of nanoseconds per commit. Fails where the last values aren't what the commits add up to.
module Main (main) where

import Control.Concurrent
import Control.Concurrent.STM hiding (check)
import Control.Monad
import Data.Array
import Data.Array.Base (unsafeAt)
import Data.Bits (shiftR)
import Data.Int (Int64)
import Data.Word
import GHC.Clock (getMonotonicTimeNSec)

rounds :: Int
rounds = 5

-- Of each thread; and those of both threads that hand over.
each, handOvers :: Int
each = 100000
handOvers = 10000

capacity :: Int
capacity = 16

-- Eight locations, and behind them a cell of its own for each thread.
locations, cells :: Int
locations = 8
cells = locations + 4

type Store = Array Int (TVar Word32)

newStore :: IO Store
newStore = listArray (0, cells - 1) <$> replicateM cells (newTVarIO 0)

add :: Store -> Int -> Word32 -> STM ()
add store place amount = modifyTVar' (unsafeAt store place) (+ amount)

-- A command of a storm: docs/SCRIPTS.md says how it is drawn.
data Command = Command !Word32 !Int !Int !Word32

next :: Word32 -> Word32
next state = state * 1664525 + 1013904223

command :: Word32 -> Command
command state = Command (drawn `div` 8 `mod` 4) place other (drawn `div` 256 + 1)
  where
    drawn = state `shiftR` 16
    place = fromIntegral (drawn `mod` 8)
    other = (place + 1 + fromIntegral (drawn `div` 32 `mod` 7)) `mod` 8

-- What a command adds, and where.
adds :: Int -> Command -> [(Int, Word32)]
adds number (Command kind place other amount) = case kind of
    0 -> [(place, amount)]
    1 -> [(locations + number, amount)]
    2 -> [(place, amount), (other, negate amount)]
    _ -> [(place, 1)]

run :: Store -> Int -> Command -> IO ()
run store number (Command kind place other amount) = case kind of
    0 -> atomically (add store place amount)
    1 -> atomically (add store (locations + number) amount)
    2 -> atomically (add store place amount >> add store other (negate amount))
    _ -> atomically (add store place 1)

-- Calls with 0, 1 and so on below a count.
times :: Int -> (Int -> IO ()) -> IO ()
times count work = go 0
  where
    go !n = when (n < count) (work n >> go (n + 1))

stormOf :: Store -> Int -> IO ()
stormOf store number = go each (fromIntegral number + 1)
  where
    go :: Int -> Word32 -> IO ()
    go 0 _ = pure ()
    go n state = run store number (command (next state)) >> go (n - 1) (next state)

-- What a storm adds up to.
stormValues :: Int -> [Word32]
stormValues threads = elems (accumArray (+) 0 (0, cells - 1) (concatMap ofThread [0 .. threads - 1]))
  where
    ofThread number =
        concatMap (adds number . command) (take each (tail (iterate next (fromIntegral number + 1))))

-- Nanoseconds, of so many threads, each on a processor of its own.
timed :: Int -> (Int -> IO ()) -> IO Word64
timed threads work = do
    setNumCapabilities threads
    start <- getMonotonicTimeNSec
    ends <- forM [0 .. threads - 1] $ \number -> do
        end <- newEmptyMVar
        _ <- forkOn number (work number >> putMVar end ())
        pure end
    mapM_ takeMVar ends
    subtract start <$> getMonotonicTimeNSec

out :: String -> Int -> Word64 -> Int -> IO ()
out mix threads took count =
    putStrLn (unwords ["stm", mix, show threads, show ((fromIntegral took * 10 `div` fromIntegral count) :: Int64)])

check :: String -> Bool -> IO ()
check mix holds = unless holds (ioError (userError (mix ++ ": the sums don't hold")))

values :: Store -> IO [Word32]
values = mapM readTVarIO . elems

storm, same, own, transfers, readings :: Int -> IO ()
storm threads = do
    store <- newStore
    took <- timed threads (stormOf store)
    found <- values store
    check "storm" (found == stormValues threads)
    out "storm" threads took (threads * each)
same threads = do
    store <- newStore
    took <- timed threads (\_ -> times each (\_ -> atomically (add store 0 1)))
    found <- values store
    check "same" (head found == fromIntegral (threads * each))
    out "same" threads took (threads * each)
own threads = do
    store <- newStore
    took <- timed threads (\number -> times each (\_ -> atomically (add store (locations + number) 1)))
    found <- values store
    check "own" (all (== fromIntegral each) (take threads (drop locations found)))
    out "own" threads took (threads * each)
transfers threads = do
    store <- newStore
    took <- timed threads (\_ -> times each (\_ -> atomically (add store 0 1 >> add store 1 (negate 1))))
    found <- values store
    check "transfers" (take 2 found == [fromIntegral (threads * each), negate (fromIntegral (threads * each))])
    out "transfers" threads took (threads * each)
readings threads = do
    store <- newStore
    forM_ [0 .. locations - 1] (\place -> atomically (add store place (fromIntegral place + 1)))
    took <- timed threads (\number -> times each (\_ -> atomically (addEight store (locations + number))))
    found <- values store
    check "reads" (all (== fromIntegral (36 * each)) (take threads (drop locations found)))
    out "reads" threads took (threads * each)

addEight :: Store -> Int -> STM ()
addEight store place = go 0 0
  where
    go :: Int -> Word32 -> STM ()
    go n !sum'
        | n == locations = add store place sum'
        | otherwise = readTVar (unsafeAt store n) >>= \value -> go (n + 1) (sum' + value)

-- The first eight locations each name a cell behind them.
named :: Int -> Int
named place = locations + place `mod` 4

-- Nine finds to each put: a find reads a location, and the cell that it names.
finds :: Int -> IO ()
finds threads = do
    store <- newStore
    forM_ [0 .. locations - 1] (\place -> atomically (add store place (fromIntegral (named place))))
    took <- timed threads (\number -> findsOf store each (fromIntegral number + 1))
    found <- values store
    check "finds" (found == findsValues threads)
    out "finds" threads took (threads * each)

findsOf :: Store -> Int -> Word32 -> IO ()
findsOf _ 0 _ = pure ()
findsOf store n state
    | n `mod` 10 == 1 = atomically (add store (named place) 1) >> findsOf store (n - 1) drawn
    | otherwise = atomically (find store place) >>= \value -> value `seq` findsOf store (n - 1) drawn
  where
    drawn = next state
    Command _ place _ _ = command drawn

find :: Store -> Int -> STM Word32
find store place = readTVar (unsafeAt store place) >>= readTVar . unsafeAt store . fromIntegral

findsValues :: Int -> [Word32]
findsValues threads = elems (accumArray (+) 0 (0, cells - 1) (first ++ concatMap ofThread [0 .. threads - 1]))
  where
    first = [(place, fromIntegral (named place)) | place <- [0 .. locations - 1]]
    ofThread number = [(named place, 1) | (n, state) <- zip [each, each - 1 .. 1] (tail (iterate next (fromIntegral number + 1))), n `mod` 10 == 1, let Command _ place _ _ = command state]

-- The head, the number of items, and the ring.
data Queue = Queue !(TVar Int) !(TVar Int) !Store

enqueue :: Queue -> Word32 -> STM ()
enqueue (Queue start count ring) item = do
    have <- readTVar count
    when (have == capacity) retry
    front <- readTVar start
    writeTVar (unsafeAt ring ((front + have) `mod` capacity)) item
    writeTVar count $! have + 1

dequeue :: Queue -> STM Word32
dequeue (Queue start count ring) = do
    have <- readTVar count
    when (have == 0) retry
    front <- readTVar start
    item <- readTVar (unsafeAt ring front)
    writeTVar start $! (front + 1) `mod` capacity
    writeTVar count $! have - 1
    pure item

queue :: IO ()
queue = do
    ring <- listArray (0, capacity - 1) <$> replicateM capacity (newTVarIO 0)
    line <- Queue <$> newTVarIO 0 <*> newTVarIO 0 <*> pure ring
    total <- newEmptyMVar
    took <- timed 2 $ \number ->
        if number == 0
            then times each (\n -> atomically (enqueue line (fromIntegral n)))
            else taken line each 0 >>= putMVar total
    found <- takeMVar total
    check "queue" (found == fromIntegral (each * (each - 1) `div` 2))
    out "queue" 2 took (2 * each)

taken :: Queue -> Int -> Word64 -> IO Word64
taken _ 0 !total = pure total
taken line n !total = atomically (dequeue line) >>= \item -> taken line (n - 1) (total + fromIntegral item)

turns :: IO ()
turns = do
    place <- newTVarIO (0 :: Int)
    took <- timed 2 (\number -> times (handOvers `div` 2) (\n -> atomically (handOver place (2 * n + number))))
    found <- readTVarIO place
    check "turns" (found == handOvers)
    out "turns" 2 took handOvers

handOver :: TVar Int -> Int -> STM ()
handOver place expected = do
    value <- readTVar place
    when (value /= expected) retry
    writeTVar place $! expected + 1

main :: IO ()
main = replicateM_ rounds $ do
    forM_ [1, 2, 4] (\threads -> storm threads >> same threads >> own threads >> transfers threads >> readings threads >> finds threads)
    queue
    turns
