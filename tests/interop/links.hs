-- Prints the links that Network.HTTP.Link finds in the text on standard input, one a line: the target, then each
-- parameter behind a tab. Debian: ghc, libghc-http-link-header-dev.
module Main (main) where

import qualified Data.Text as Text
import qualified Data.Text.IO as Text.IO
import Network.HTTP.Link (Link (Link), LinkParam (..), parseLinkHeader')
import Network.URI (URI)
import System.Exit (die)

name :: LinkParam -> Text.Text
name Rel = Text.pack "rel"
name ContentType = Text.pack "type"
name (Other other) = other
name other = Text.pack (show other)

line :: Link URI -> Text.Text
line (Link target params) =
  Text.intercalate (Text.pack "\t") (Text.pack (show target) : map shown params)
  where
    shown (key, value) = Text.concat [name key, Text.pack "=", value]

main :: IO ()
main = do
  text <- Text.IO.getContents
  either die (mapM_ (Text.IO.putStrLn . line)) (parseLinkHeader' text)
