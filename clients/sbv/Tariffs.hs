-- | Asks a solver about tariffs, which are functions over real numbers, and writes the answers.
--
-- What is written does not depend on the solver: of a model only that is asked which holds in each one.
module Main (main) where

import Data.SBV
import Data.SBV.Control
import System.Environment (getArgs)
import System.Exit (die)

main :: IO ()
main = do
  command <- getArgs
  config <- case command of
    [] -> die "usage: Tariffs z3 | Tariffs SOLVER ARGUMENTS.."
    ["z3"] -> pure z3
    program : arguments -> pure $ configurationOf program arguments
  askForModels config
  askForProofs config
  askInLevels config

-- | SBV's configuration for yices sends no option that the language has not. The value of a whole function is not asked for.
configurationOf :: String -> [String] -> SMTConfig
configurationOf program arguments =
  yices {satTrackUFs = False, solver = (solver yices) {executable = program, options = const arguments}}

-- | The price of an amount, of which nothing is known but what is stated.
price :: SReal -> SReal
price = uninterpret "price"

-- | The price does not fall from one amount to another.
rises :: SReal -> SReal -> SBool
rises a b = a .<= b .=> price a .<= price b

-- | A tariff of two rates, with no jump between them.
twoRates :: SReal -> SReal
twoRates amount = ite (amount .<= 10) (3 * amount) (30 + (amount - 10) / 2)

-- | Asks for amounts, once where there is one way, and once where there is none.
askForModels :: SMTConfig -> IO ()
askForModels config = do
  amounts <- satWith config $ do
    x <- sReal "x"
    y <- sReal "y"
    constrain $ x + y .== 5
    pure $ x - y .== 1 / 3
  tell "x" (getModelValue "x" amounts :: Maybe AlgReal)
  tell "y" (getModelValue "y" amounts :: Maybe AlgReal)
  SatResult none <- satWith config $ do
    x <- sReal "x"
    y <- sReal "y"
    constrain $ rises x y .&& x .< y
    pure $ price y .< price x
  tell "a price that rises and falls" (hasModel none)

-- | Asks whether statements hold for all amounts.
askForProofs :: SMTConfig -> IO ()
askForProofs config = do
  holds "equal amounts have equal prices" $ \x y -> x .== y .=> price x .== price y
  holds "equal prices have equal amounts" $ \x y -> price x .== price y .=> x .== y
  holds "prices of larger amounts" $ \x y -> rises 1 x .&& rises x y .&& 1 .<= x .&& x .<= y .=> price 1 .<= price y
  holds "two rates rise" $ \x y -> x .<= y .=> twoRates x .<= twoRates y
  holds "two rates are one" $ \x y -> x .<= y .=> twoRates x .== 3 * x
  where
    holds :: String -> (SReal -> SReal -> SBool) -> IO ()
    holds title statement = do
      ThmResult counterexample <- proveWith config statement
      tell title (not <$> hasModel counterexample)

-- | Asks several questions of one session, each at a level of its own.
askInLevels :: SMTConfig -> IO ()
askInLevels config = runSMTWith config $ do
  x <- sReal "x"
  constrain $ price 2 .== 7 .&& rises 2 x .&& x .>= 2
  query $ do
    io . tell "a price" =<< checkSat
    inNewAssertionStack $ do
      constrain $ twoRates x .== 33 .&& price x .< 7
      io . tell "a price below that of a smaller amount" =<< checkSat
    push 1
    -- A term that was not sent before is defined when its value is asked for, and a definition takes back what the check has shown.
    less <- freshVar "less"
    constrain $ less .== price x - 100
    constrain $ twoRates x .== 33 .&& price x .== 2 * x + 1 / 3
    io . tell "a price by both tariffs" =<< checkSat
    io . tell "x" =<< getValue x
    io . tell "price x" =<< getValue (price x)
    io . tell "price x - 100" =<< getValue less
    pop 1
    io . tell "a price again" =<< checkSat

-- | Tells whether there is a model, where the solver found that out.
hasModel :: SMTResult -> Maybe Bool
hasModel Satisfiable {} = Just True
hasModel Unsatisfiable {} = Just False
hasModel _ = Nothing

-- | Writes what was found.
tell :: Show a => String -> a -> IO ()
tell title found = putStrLn (title ++ ": " ++ show found)
