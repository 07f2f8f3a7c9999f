{-# LANGUAGE BangPatterns #-}

-- Reads of one TVar by GHC, in a transaction of their own and without one. Prints lines 'ns NAME tenths', as the program in Rattle does.
-- What was read is printed in sum, so that no read is left out.
module Main (main) where

import Control.Concurrent.STM
import Control.Monad
import Data.Word
import GHC.Clock (getMonotonicTimeNSec)

rounds, each :: Int
rounds = 20
each = 1000000

line :: String -> TVar Word32 -> (TVar Word32 -> IO Word32) -> IO Word64
line name var look = do
    start <- getMonotonicTimeNSec
    total <- go each 0
    end <- getMonotonicTimeNSec
    putStrLn ("ns " ++ name ++ " " ++ show ((end - start) * 10 `div` fromIntegral each))
    return total
  where
    go :: Int -> Word64 -> IO Word64
    go 0 !total = return total
    go n !total = do
        value <- look var
        go (n - 1) (total + fromIntegral value)
{-# INLINE line #-}

main :: IO ()
main = do
    var <- newTVarIO 7
    totals <- forM [1 .. rounds] $ \_ -> do
        a <- line "tvar_io" var readTVarIO
        b <- line "tvar" var (atomically . readTVar)
        return (a + b)
    putStrLn ("sum of_what_was_read " ++ show (sum totals))
